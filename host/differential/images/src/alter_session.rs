//! Alterations of a state, most of which break a rule: the sessions.

use image::{Address, Session, Side, State, MOST_MS};

use crate::random::Random;
use crate::states::any_address;

pub(crate) fn alter_session(state: &mut State, random: &mut Random) {
    if state.sessions.is_empty() {
        return;
    }
    let other = random.pick(&state.sessions);
    let index = random.below(state.sessions.len());
    let mut session = state.sessions.swap_remove(index);
    match random.below(8) {
        0 => move_to_flow(&mut session, state, random),
        1 => alter_source(&mut session, &other, random),
        2 => session.level = random.pick(&[0, 1, 2, 3, 4, 5, 6, 7, 8, 255]),
        3 => session.side = random.pick(&[Side::External, Side::Cen]),
        4 => alter_tag(&mut session, &other, random),
        5 => session.ms_left = random.pick(&[0, 1, MOST_MS, MOST_MS + 1, u32::MAX]),
        6 => alter_notice(&mut session, random),
        _ => fill_sessions(&session, state, random),
    }
    state.sessions.push(session);
}

/// To another flow of the plan or to none, with that flow's tag or its own.
fn move_to_flow(session: &mut Session, state: &State, random: &mut Random) {
    let named = random.pick(&state.flows).number;
    session.flow = random.pick(&[0, 1, 32, 33, 255, named, named, named]);
    if let Some(flow) = state.flow(session.flow).filter(|_| !random.one_in(3)) {
        session.tag = flow.tag(random.octet());
        let levels: Vec<u8> = (0..8).filter(|&level| flow.mp(level).is_some()).collect();
        session.level = levels.first().copied().unwrap_or(session.level);
    }
}

fn alter_source(session: &mut Session, other: &Session, random: &mut Random) {
    match random.below(5) {
        0 => session.source = any_address(random),
        1 => session.source.0[0] ^= 1,
        2 => session.source = other.source,
        3 => session.source = Address::of(0),
        _ => session.source.0[random.below(6)] ^= 1 << random.below(8),
    }
}

fn alter_tag(session: &mut Session, other: &Session, random: &mut Random) {
    match random.below(4) {
        0 => session.tag = other.tag,
        1 => session.tag = None,
        2 => session.tag = Some(0),
        _ => session.tag = session.tag.map(|tag| tag ^ 1 << random.below(32)),
    }
}

/// Another code, and sometimes a time that goes with it.
fn alter_notice(session: &mut Session, random: &mut Random) {
    session.notice = random.pick(&[None, Some(7), Some(8), Some(9), Some(10), Some(255)]);
    if random.one_in(2) {
        session.ms_left = u32::from(session.is_open());
    }
}

/// Adds sessions like this one until there are 16 or 17 with it.
fn fill_sessions(session: &Session, state: &mut State, random: &mut Random) {
    let count = random.pick(&[15, 16]);
    for number in 0.. {
        if state.sessions.len() >= count {
            return;
        }
        state.sessions.push(Session { source: Address::of(0x0600_0000_0000 + number), ..*session });
    }
}
