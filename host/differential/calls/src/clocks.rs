//! Readings of the clock.

use image::State;
use random::Random;

/// A reading to begin with, often one that is soon to wrap.
pub(crate) fn first(random: &mut Random) -> u32 {
    let any = random.number() as u32;
    random.pick(&[0, 1, 5_000, 0x7FFF_FFFF, 0x8000_0000, 4_294_000_000, 4_294_967_290, u32::MAX, any])
}

/// A reading at, just before or just after something happens.
pub(crate) fn next(state: &State, random: &mut Random) -> u32 {
    let left = match state.sessions.is_empty() {
        true => 1000,
        false => random.pick(&state.sessions).ms_left,
    };
    let any = random.number() as u32;
    let step = match random.below(24) {
        0 => 0x7FFF_FFFF,
        1 => 0x8000_0000,
        2 => u32::MAX,
        3 => any,
        4..=6 => left,
        7 | 8 => left.saturating_sub(1),
        9 => left + 1,
        10 => 0,
        11 => state.clock.wrapping_neg(),
        12 => !state.clock,
        _ => random.pick(&[1, 2, 300, 999, 1000, 1500]),
    };
    state.clock.wrapping_add(step)
}
