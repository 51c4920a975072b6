//! Bits flipped in what a call shows.

use crate::call::Shown;

#[derive(Clone, Copy)]
pub(crate) enum Part {
    Answer,
    Output,
    Image,
}

pub(crate) const PARTS: [Part; 3] = [Part::Answer, Part::Output, Part::Image];

/// Flips a bit of that part; false where the part has none.
pub(crate) fn flip(shown: &mut Shown, part: Part, place: u64) -> bool {
    let bit = place % 8;
    let octets = match part {
        Part::Answer => {
            shown.answer.0 ^= 1 << (place % 64);
            return true;
        }
        Part::Output => &mut shown.out,
        Part::Image => &mut shown.image,
    };
    let index = (place / 8) as usize % octets.len().max(1);
    octets.get_mut(index).map(|octet| *octet ^= 1 << bit).is_some()
}
