//! Images that a host lends instead of the one that the last call left.

use image::{State, IMAGE_LENGTH};
use images::damage::damaged;
use images::states::random_state;
use random::Random;

/// A damaged one, any state's, or octets of no meaning.
pub(crate) fn other(state: &State, random: &mut Random) -> Vec<u8> {
    match random.below(8) {
        0..=4 => damaged(state, random),
        5 | 6 => random_state(random).image().to_vec(),
        _ => meaningless(random),
    }
}

/// What a host may have where no state was made yet.
pub(crate) fn meaningless(random: &mut Random) -> Vec<u8> {
    match random.one_in(2) {
        true => vec![random.pick(&[0, 255]); IMAGE_LENGTH],
        false => (0..IMAGE_LENGTH).map(|_| random.octet()).collect(),
    }
}
