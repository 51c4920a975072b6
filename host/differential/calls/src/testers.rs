//! Where testers' frames come from, and what they ask for.

use image::{Address, State};
use random::Random;

use crate::mood::Mood;

/// Sources that are easily taken for others, or for none.
pub(crate) fn source(state: &State, mood: &Mood, random: &mut Random) -> [u8; 6] {
    let tester = 0x0200_0000_0010 + random.below(mood.testers as usize) as u64;
    let number = match random.below(20) {
        0 => 0,
        1 => random.pick(&state.ports).address.number(),
        2 => tester ^ 0x0400_0000_0000,
        3 => random.pick(&[1, 0xFEFF_FFFF_FFFF, 0x8000_0000_0000]),
        _ => tester,
    };
    Address::of(number).0
}

pub(crate) fn message_type(mood: &Mood, random: &mut Random) -> u8 {
    match random.one_in(mood.closing_in) {
        true => 2,
        false => random.pick(&[1, 1, 3]),
    }
}

pub(crate) fn seconds(mood: &Mood, random: &mut Random) -> u32 {
    match random.one_in(6) {
        true => random.pick(&[0, 0, 1, 86_399, 86_400, 86_401, 86_401, 172_800, u32::MAX]),
        false => random.pick(mood.seconds),
    }
}
