//! Random valid states, their rows in no order.

use std::collections::BTreeSet;

use image::{Address, Flow, Mp, Port, PortKind, Session, SetKind, Side, State, MOST_MS};

use crate::random::Random;

pub fn random_state(random: &mut Random) -> State {
    let ports = ports(random);
    let mut flows = flows(random, &ports);
    add_mps(random, &mut flows);
    let prohibited_in = random.pick(&[1, 2, 4, 16]);
    let allowed: BTreeSet<u8> =
        flows.iter().map(|flow| flow.number).filter(|_| !random.one_in(prohibited_in)).collect();
    let clock = random.number() as u32;
    let mut state = State { ports, flows, clock, allowed, sessions: Vec::new() };
    add_sessions(random, &mut state);
    state
}

/// Often one of a few, so that addresses and sources meet.
pub(crate) fn any_address(random: &mut Random) -> Address {
    let number = match random.below(6) {
        0 => 0,
        1..=3 => 0x0200_0000_0000 | random.below(12) as u64,
        4 => random.pick(&[1, 0xFEFF_FFFF_FFFF, 0x8000_0000_0000]),
        _ => random.number() & 0xFEFF_FFFF_FFFF,
    };
    Address::of(number)
}

fn ports(random: &mut Random) -> Vec<Port> {
    let mut numbers: Vec<u8> = (1..=8).collect();
    random.shuffle(&mut numbers);
    let mut ports: Vec<Port> = Vec::new();
    for &number in &numbers[..=random.below(8)] {
        let mut address = Address::of(0);
        while address.number() == 0 || ports.iter().any(|port| port.address == address) {
            address = any_address(random);
        }
        let kind = random.pick(&[PortKind::Uni, PortKind::Enni]);
        ports.push(Port { number, kind, address });
    }
    ports
}

fn flows(random: &mut Random, ports: &[Port]) -> Vec<Flow> {
    let mut numbers: Vec<u8> = (1..=32).collect();
    random.shuffle(&mut numbers);
    numbers.truncate(random.pick(&[0, 1, 2, 3, 8, 16, 32]));
    let mut flows: Vec<Flow> = Vec::new();
    for number in numbers {
        let port = random.pick(ports);
        let (kind, vid) = random_set(random, port.kind);
        let flow = Flow { number, port: port.number, kind, vid, mps: [None; 8] };
        if flows.iter().all(|other| other.set() != flow.set()) {
            flows.push(flow);
        }
    }
    flows
}

fn random_set(random: &mut Random, kind: PortKind) -> (SetKind, u16) {
    let any_vid = 1 + random.below(4094) as u16;
    let vid = random.pick(&[1, 2, 20, 30, 4093, 4094, any_vid]);
    match kind {
        _ if random.one_in(4) => (SetKind::U, 0),
        PortKind::Uni => (SetKind::C, vid),
        PortKind::Enni => (SetKind::S, vid),
    }
}

fn add_mps(random: &mut Random, flows: &mut [Flow]) {
    let mut rooms: Vec<(usize, usize)> =
        (0..flows.len()).flat_map(|flow| (0..8).map(move |level| (flow, level))).collect();
    random.shuffle(&mut rooms);
    let count = random.pick(&[0, 1, 4, 8, 16, 31, 32, 32]);
    for (flow, level) in rooms.into_iter().take(count) {
        flows[flow].mps[level] = Some(random.pick(&[Mp::Up, Mp::Down, Mp::Mip]));
    }
}

fn add_sessions(random: &mut Random, state: &mut State) {
    let mut rooms: Vec<(Flow, u8)> = Vec::new();
    for flow in &state.flows {
        rooms.extend((0..8).filter(|&level| flow.mp(level).is_some()).map(|level| (*flow, level)));
    }
    let count = random.pick(&[0, 1, 2, 4, 8, 16, 32]);
    for _ in 0..count {
        if state.sessions.len() == 16 || rooms.is_empty() {
            return;
        }
        let (flow, level) = random.pick(&rooms);
        let session = random_session(random, &flow, level, state.allowed.contains(&flow.number));
        if state.sessions.iter().all(|other| other.key() != session.key()) {
            state.sessions.push(session);
        }
    }
}

fn random_session(random: &mut Random, flow: &Flow, level: u8, allowed: bool) -> Session {
    let side = match flow.mp(level) {
        Some(Mp::Up) => Side::Cen,
        Some(Mp::Down) => Side::External,
        _ => random.pick(&[Side::External, Side::Cen]),
    };
    let notice = match allowed {
        true => random.one_in(4).then_some(8),
        false => Some(9),
    };
    let any_time = 1 + random.below(MOST_MS as usize) as u32;
    let ms_left = random.pick(&[1, 1000, 60_000, MOST_MS, any_time]);
    Session {
        flow: flow.number,
        source: any_address(random),
        level,
        side,
        tag: flow.tag(random.pick(&[0, 1, 7, 8, 15])),
        ms_left: if notice.is_none() { ms_left } else { 0 },
        notice,
    }
}
