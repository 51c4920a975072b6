//! Where frames are aimed at: an MP of the plan, and often a session.

use image::{Session, State};
use model::{Flow, MpKind, SetKind, Unit};
use random::Random;

pub(crate) struct Aim {
    pub(crate) port: u32,
    pub(crate) side: u32,
    pub(crate) address: [u8; 6],
    pub(crate) source: [u8; 6],
    pub(crate) tag: Vec<u8>,
    pub(crate) level: u8,
}

/// The state that the unit is in.
pub(crate) fn state(unit: &Unit) -> State {
    State::read(&unit.image()).expect("a unit's state is valid")
}

pub(crate) fn any(unit: &Unit, random: &mut Random) -> Aim {
    let sessions = state(unit).sessions;
    if !sessions.is_empty() && random.one_in(2) {
        let session = random.pick(&sessions);
        return at_session(unit, &session, random);
    }
    let source = [0x02, 0, 0, 0, 0x01, random.below(6) as u8];
    let served = served(unit, random);
    match served.is_empty() {
        true => at_port(unit, source, random),
        false => {
            let (number, level) = random.pick(&served);
            let side = faced(unit.plan().flows[&number].mps[&level], random);
            at_flow(unit, &unit.plan().flows[&number], (level, side), source)
        }
    }
}

/// MPs by their flow and level: most often only those of allowed flows.
fn served(unit: &Unit, random: &mut Random) -> Vec<(u32, u8)> {
    let allowed = state(unit).allowed;
    let is_allowed = |&(flow, _): &(u32, u8)| allowed.iter().any(|&number| u32::from(number) == flow);
    let of_allowed: Vec<(u32, u8)> = mps(unit).filter(is_allowed).collect();
    match of_allowed.is_empty() || random.one_in(8) {
        true => mps(unit).collect(),
        false => of_allowed,
    }
}

fn mps(unit: &Unit) -> impl Iterator<Item = (u32, u8)> + '_ {
    unit.plan().flows.iter().flat_map(|(&number, flow)| flow.mps.keys().map(move |&level| (number, level)))
}

/// Its own MP, or sometimes another level's.
fn at_session(unit: &Unit, session: &Session, random: &mut Random) -> Aim {
    let flow = &unit.plan().flows[&u32::from(session.flow)];
    let level = if random.one_in(4) { random.below(8) as u8 } else { session.level };
    at_flow(unit, flow, (level, session.side as u32), session.source.0)
}

fn at_flow(unit: &Unit, flow: &Flow, (level, side): (u8, u32), source: [u8; 6]) -> Aim {
    let [high, low] = flow.vid.to_be_bytes();
    let tag = match flow.kind {
        SetKind::U => Vec::new(),
        SetKind::C => vec![0x81, 0x00, high, low],
        SetKind::S => vec![0x88, 0xA8, 0xE0 | high, low],
    };
    Aim { port: flow.port, side, address: unit.plan().ports[&flow.port].address, source, tag, level }
}

/// A port of a plan that has no MP.
fn at_port(unit: &Unit, source: [u8; 6], random: &mut Random) -> Aim {
    let ports: Vec<u32> = unit.plan().ports.keys().copied().collect();
    let port = random.pick(&ports);
    let address = unit.plan().ports[&port].address;
    Aim { port, side: random.below(2) as u32, address, source, tag: Vec::new(), level: 4 }
}

/// A side that the MP faces.
fn faced(mp: MpKind, random: &mut Random) -> u32 {
    match mp {
        MpKind::Up => 1,
        MpKind::Down => 0,
        MpKind::Mip => random.below(2) as u32,
    }
}
