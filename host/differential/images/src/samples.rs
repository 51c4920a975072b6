//! Valid states made by hand.

use std::collections::BTreeSet;

use image::{Address, Flow, Mp, Port, PortKind, Session, SetKind, Side, State};

/// The states with their names.
pub fn all() -> [(&'static str, State); 5] {
    [("bench", bench()), ("full", full()), ("notices", notices()), ("empty", empty()), ("mips", mips())]
}

/// BENCH-13's plan, after BENCH-1.
pub fn bench() -> State {
    let mut first = flow(1, 1, SetKind::C, 20);
    first.mps[4] = Some(Mp::Up);
    let flows = vec![first, flow(2, 1, SetKind::C, 30)];
    let sessions = vec![open(&first, 0xAA, 4, Side::Cen, 60_000)];
    state(vec![port(1, PortKind::Uni)], flows, [1], sessions)
}

/// One port and nothing else.
pub fn empty() -> State {
    state(vec![port(1, PortKind::Uni)], Vec::new(), [], Vec::new())
}

/// As many ports, flows, MPs and sessions as a unit can have, of all kinds; flows' numbers run against their rows.
pub fn full() -> State {
    let kinds = [(PortKind::Uni, SetKind::C), (PortKind::Enni, SetKind::S)];
    let ports = (0..8).map(|index| port(8 - index, kinds[usize::from(index % 2)].0)).collect();
    let mut flows: Vec<Flow> = Vec::new();
    for index in 0..32 {
        let port = 8 - index / 4;
        let (kind, vid) = match index % 4 {
            0 => (SetKind::U, 0),
            turn => (kinds[usize::from(index / 4 % 2)].1, [1, 20, 4094][usize::from(turn) - 1]),
        };
        let mut flow = flow(index + 1, port, kind, vid);
        flow.mps[usize::from(index % 8)] = Some([Mp::Up, Mp::Down, Mp::Mip][usize::from(index % 3)]);
        flows.push(flow);
    }
    let session_of = |flow: &Flow| {
        let level = (flow.number - 1) % 8;
        let side = [Side::Cen, Side::External][usize::from((flow.number - 1) % 3 % 2)];
        open(flow, u64::from(flow.number), level, side, 1 + u32::from(flow.number) * 2_700_000)
    };
    let sessions = flows.iter().step_by(2).map(session_of).collect();
    state(ports, flows, 1..=32, sessions)
}

/// Sessions owed notices of both codes beside an open one.
pub fn notices() -> State {
    let mut flows = [flow(3, 2, SetKind::S, 7), flow(5, 2, SetKind::U, 0), flow(9, 2, SetKind::S, 4094)];
    for flow in &mut flows {
        flow.mps[2] = Some(Mp::Down);
    }
    let owed = |flow: &Flow, source, code| Session { notice: Some(code), ..open(flow, source, 2, Side::External, 0) };
    let sessions = vec![
        owed(&flows[0], 1, 9),
        owed(&flows[0], 2, 9),
        owed(&flows[1], 1, 8),
        open(&flows[1], 2, 2, Side::External, 1),
        owed(&flows[2], 1, 9),
    ];
    state(vec![port(2, PortKind::Enni)], flows.to_vec(), [5], sessions)
}

/// Several MPs a flow, and sessions of both sides of a MIP.
pub fn mips() -> State {
    let mut first = flow(1, 1, SetKind::C, 100);
    first.mps = [Some(Mp::Up), None, Some(Mp::Mip), Some(Mp::Mip), None, Some(Mp::Down), None, Some(Mp::Mip)];
    let mut second = flow(32, 8, SetKind::U, 0);
    second.mps[6..].copy_from_slice(&[Some(Mp::Mip), Some(Mp::Up)]);
    let sessions = vec![
        open(&first, 1, 2, Side::External, 5_000),
        open(&first, 2, 2, Side::Cen, 5_001),
        open(&first, 3, 5, Side::External, 86_400_000),
        open(&second, 1, 6, Side::Cen, 1),
        open(&second, 2, 6, Side::External, 2),
    ];
    state(vec![port(1, PortKind::Uni), port(8, PortKind::Enni)], vec![first, second], [1, 32], sessions)
}

fn state(ports: Vec<Port>, flows: Vec<Flow>, allowed: impl IntoIterator<Item = u8>, sessions: Vec<Session>) -> State {
    State { ports, flows, clock: 0, allowed: BTreeSet::from_iter(allowed), sessions }
}

fn port(number: u8, kind: PortKind) -> Port {
    Port { number, kind, address: local(u64::from(number)) }
}

fn flow(number: u8, port: u8, kind: SetKind, vid: u16) -> Flow {
    Flow { number, port, kind, vid, mps: [None; 8] }
}

fn open(flow: &Flow, source: u64, level: u8, side: Side, ms_left: u32) -> Session {
    Session { flow: flow.number, source: local(source), level, side, tag: flow.tag(0), ms_left, notice: None }
}

/// The address 02-00-00-00-00-00 plus a number.
fn local(number: u64) -> Address {
    Address::of(0x0200_0000_0000 + number)
}
