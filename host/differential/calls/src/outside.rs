//! Calls of the host's own, and numbers that it hands in: flows, and lengths of outputs.

use image::State;
use random::Random;

use crate::call::Call;
use crate::clocks;

/// An allow, prohibit, take-notice or restart call.
pub(crate) fn management(state: &State, random: &mut Random) -> Call {
    match random.below(10) {
        0..=4 => Call::Allow { flow: flow(state, random) },
        5..=7 => Call::Prohibit { flow: flow(state, random) },
        8 => Call::Notice { out_len: out_len(random) },
        _ => Call::Restart { clock: clocks::next(state, random) },
    }
}

/// A flow of the plan, or one that is none.
fn flow(state: &State, random: &mut Random) -> u32 {
    let any = 1 + random.below(32) as u32;
    let named = match state.flows.is_empty() {
        true => any,
        false => u32::from(random.pick(&state.flows).number),
    };
    match random.one_in(8) {
        true => random.pick(&[0, 33, any, 256 + named, 0x1_0000 + named, u32::MAX]),
        false => named,
    }
}

/// Enough for every answer, or not.
pub(crate) fn out_len(random: &mut Random) -> usize {
    match random.one_in(8) {
        true => random.pick(&[0, 1, 1999, 2000, 2007, 2007, 2009, 4096]),
        false => 2008,
    }
}
