//! Frame calls: aimed, turned into data, and missing.

use image::State;
use random::Random;

use crate::call::Call;
use crate::mood::Mood;
use crate::{aim, data, lengths, miss, outside};

pub(crate) fn any(state: &State, mood: &Mood, random: &mut Random) -> Call {
    let mut draft = aim::request(state, mood, random);
    if random.one_in(4) {
        data::turn(&mut draft, random);
    }
    if random.one_in(mood.missing_in) {
        for _ in 0..1 + random.below(3) {
            miss::miss(&mut draft, state, random);
        }
    }
    let (port, side) = (draft.port, draft.side);
    Call::Frame { port, side, frame: lengths::written(draft, random), out_len: outside::out_len(random) }
}
