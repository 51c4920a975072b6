//! Requests aimed at an MP of the plan, and often at a session.

use image::{Address, Flow, Mp, Port, SetKind, Side, State};
use random::Random;

use crate::draft::{class_two, Draft, SOAM};
use crate::mood::Mood;
use crate::pdu::Pdu;
use crate::testers;

/// What a request is aimed at.
struct Place {
    flow: Flow,
    level: u8,
    side: Side,
    source: [u8; 6],
}

pub(crate) fn request(state: &State, mood: &Mood, random: &mut Random) -> Draft {
    let place = place(state, mood, random);
    let address = port_address(state, place.flow.port);
    let message_type = testers::message_type(mood, random);
    let pdu = Pdu::request(place.level, address, message_type, testers::seconds(mood, random), random);
    let priority = random.pick(&[0, 0, 0, 1, 7, 8, 15]);
    let mut draft = Draft {
        port: u32::from(place.flow.port),
        side: place.side as u32,
        destination: address,
        source: place.source,
        tags: place.flow.tag(priority).map_or(Vec::new(), |tag| tag.to_be_bytes().to_vec()),
        ether_type: SOAM,
        pdu,
    };
    if message_type == 3 && random.one_in(3) {
        make_multicast(&mut draft, random);
    }
    draft
}

/// The Loopback Port MAC of a multicast request is not compared.
fn make_multicast(draft: &mut Draft, random: &mut Random) {
    draft.destination = class_two(draft.pdu.level);
    draft.pdu.port = random.pick(&[draft.pdu.port, draft.destination, [0; 6], [0xFF; 6]]);
}

fn port_address(state: &State, number: u8) -> [u8; 6] {
    state.port(number).map_or([2; 6], |port: &Port| port.address.0)
}

fn place(state: &State, mood: &Mood, random: &mut Random) -> Place {
    if !state.sessions.is_empty() && random.one_in(2) {
        return at_session(state, random);
    }
    let mut mps: Vec<(Flow, u8)> = Vec::new();
    for flow in &state.flows {
        mps.extend((0..8).filter(|&level| flow.mp(level).is_some()).map(|level| (*flow, level)));
    }
    let (flow, level) = match mps.is_empty() {
        true => (any_flow(state, random), random.below(8) as u8),
        false => random.pick(&mps),
    };
    Place { side: faced(&flow, level, random), source: testers::source(state, mood, random), flow, level }
}

/// Its own MP, or sometimes another one of its flow.
fn at_session(state: &State, random: &mut Random) -> Place {
    let session = random.pick(&state.sessions);
    let flow = state.flow(session.flow).copied().unwrap_or_else(|| any_flow(state, random));
    let Address(source) = session.source;
    if random.one_in(3) {
        let levels: Vec<u8> = (0..8).filter(|&level| flow.mp(level).is_some()).collect();
        let level = random.pick(&levels);
        return Place { side: faced(&flow, level, random), flow, level, source };
    }
    Place { flow, level: session.level, side: session.side, source }
}

/// A side that the MP faces.
fn faced(flow: &Flow, level: u8, random: &mut Random) -> Side {
    match flow.mp(level) {
        Some(Mp::Up) => Side::Cen,
        Some(Mp::Down) => Side::External,
        _ => random.pick(&[Side::External, Side::Cen]),
    }
}

/// A flow of the plan; one that is not in it where it has none.
fn any_flow(state: &State, random: &mut Random) -> Flow {
    match state.flows.is_empty() {
        true => Flow { number: 0, port: random.pick(&state.ports).number, kind: SetKind::C, vid: 20, mps: [None; 8] },
        false => random.pick(&state.flows),
    }
}
