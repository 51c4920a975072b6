//! The next event: frames, and what a host does besides.

use model::Unit;
use random::Random;

use crate::aim::state;
use crate::event::Event;
use crate::frames;
use crate::tag::Name;

/// Frames' lengths at the limits. The last one's line has 4,100 octets.
pub(crate) const LENGTHS: [(Name, usize); 6] = [
    ("frame of no octets", 0),
    ("frame of 13 octets", 13),
    ("frame of 14 octets", 14),
    ("frame of 2,000 octets", 2_000),
    ("frame of 2,001 octets", 2_001),
    ("frame of 2,045 octets", 2_045),
];

/// The events that allow some of the plan's flows, first of all those that have MPs.
pub(crate) fn opening(unit: &Unit, most: usize, random: &mut Random) -> Vec<Event> {
    let mut flows: Vec<(bool, u32)> =
        unit.plan().flows.iter().map(|(&number, flow)| (flow.mps.is_empty(), number)).collect();
    random.shuffle(&mut flows);
    flows.sort_by_key(|&(has_none, _)| has_none);
    flows.into_iter().take(most).map(|(_, flow)| Event::Allow(flow)).collect()
}

pub(crate) fn any(unit: &Unit, random: &mut Random) -> (Event, Option<Name>) {
    let is_due = state(unit).sessions.iter().any(|session| !session.is_open());
    if is_due && random.one_in(2) {
        return (Event::Notice, None);
    }
    if random.one_in(12) {
        let (name, octets) = random.pick(&LENGTHS);
        return (frames::of_length(unit, octets, random), Some(name));
    }
    let event = match random.below(20) {
        0..=2 => Event::Tick(reading(unit, random)),
        3 | 4 => Event::Allow(flow(unit, random)),
        5 => Event::Prohibit(tested_flow(unit, random)),
        6 if random.one_in(2) => Event::Notice,
        6 => Event::Restart(reading(unit, random)),
        _ => frames::any(unit, random),
    };
    (event, None)
}

/// A flow of the plan, or sometimes one that is none.
fn flow(unit: &Unit, random: &mut Random) -> u32 {
    let flows: Vec<u32> = unit.plan().flows.keys().copied().collect();
    match flows.is_empty() || random.one_in(6) {
        true => random.pick(&[0, 33, 257, u32::MAX, 1, 32]),
        false => random.pick(&flows),
    }
}

/// Often the flow of a session.
fn tested_flow(unit: &Unit, random: &mut Random) -> u32 {
    let sessions = state(unit).sessions;
    match sessions.is_empty() || random.one_in(3) {
        true => flow(unit, random),
        false => u32::from(random.pick(&sessions).flow),
    }
}

/// A reading at, just before or just after something happens.
fn reading(unit: &Unit, random: &mut Random) -> u32 {
    let state = state(unit);
    let left = if state.sessions.is_empty() { 1_000 } else { random.pick(&state.sessions).ms_left };
    let any = random.number() as u32;
    let step = match random.below(14) {
        0 => 0x7FFF_FFFF,
        1 => 0x8000_0000,
        2 => any,
        3..=5 => left,
        6 => left.saturating_sub(1),
        7 => 0,
        8 => return u32::MAX,
        _ => random.pick(&[1, 300, 1_000, 59_999]),
    };
    state.clock.wrapping_add(step)
}
