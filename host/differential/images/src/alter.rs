//! Alterations of a state, most of which break a rule: the plan and the allowed flows.

use image::{Address, Mp, PortKind, SetKind, State};

use crate::alter_session::alter_session;
use crate::random::Random;
use crate::states::any_address;

/// The state with something changed in it.
pub(crate) fn altered(state: &State, random: &mut Random) -> State {
    let mut state = state.clone();
    match random.below(8) {
        0 => alter_port(&mut state, random),
        1 | 2 => alter_flow(&mut state, random),
        3 => alter_mps(&mut state, random),
        4 => alter_allowed(&mut state, random),
        _ => alter_session(&mut state, random),
    }
    state
}

fn alter_port(state: &mut State, random: &mut Random) {
    let other = random.pick(&state.ports);
    let index = random.below(state.ports.len());
    let port = &mut state.ports[index];
    match random.below(8) {
        0 => port.number = random.pick(&[0, 1, 8, 9, 255]),
        1 => port.number = other.number,
        2 => port.address = other.address,
        3 => port.address = Address::of(0),
        4 => port.address.0[0] ^= 1,
        5 => port.address = any_address(random),
        6 => port.kind = random.pick(&[PortKind::Uni, PortKind::Enni]),
        _ => drop(state.ports.remove(index)),
    }
}

fn alter_flow(state: &mut State, random: &mut Random) {
    if state.flows.is_empty() {
        return;
    }
    let other = random.pick(&state.flows);
    let index = random.below(state.flows.len());
    let flow = &mut state.flows[index];
    match random.below(9) {
        0 => flow.number = random.pick(&[0, 1, 32, 33, 255]),
        1 => flow.number = other.number,
        2 => flow.port = random.below(10) as u8,
        3 => flow.port = other.port,
        4 => flow.kind = random.pick(&[SetKind::U, SetKind::C, SetKind::S]),
        5 => flow.vid = random.pick(&[0, 1, 4094, 4095, 4096, other.vid]),
        6 => flow.vid ^= 1 << random.below(16),
        7 => (flow.port, flow.kind, flow.vid) = other.set(),
        _ => drop(state.flows.remove(index)),
    }
}

fn alter_mps(state: &mut State, random: &mut Random) {
    match random.below(3) {
        0 => change_mp(state, random),
        1 => fill_mps(state, 32, random),
        _ => fill_mps(state, 33, random),
    }
}

fn change_mp(state: &mut State, random: &mut Random) {
    if let Some(flow) = random.pick_mut(&mut state.flows) {
        flow.mps[random.below(8)] = random.pick(&[None, Some(Mp::Up), Some(Mp::Down), Some(Mp::Mip)]);
    }
}

/// Adds MPs up to that count, as far as the flows have levels for them.
fn fill_mps(state: &mut State, count: usize, random: &mut Random) {
    let wanted = count.saturating_sub(state.mp_count());
    let free = state.flows.iter_mut().flat_map(|flow| &mut flow.mps).filter(|mp| mp.is_none());
    for mp in free.take(wanted) {
        *mp = Some(random.pick(&[Mp::Up, Mp::Down, Mp::Mip]));
    }
}

fn alter_allowed(state: &mut State, random: &mut Random) {
    let number = match random.pick_mut(&mut state.flows) {
        Some(flow) if !random.one_in(4) => flow.number,
        _ => 1 + random.below(32) as u8,
    };
    if !state.allowed.remove(&number) {
        state.allowed.insert(number);
    }
}
