//! That the comparison can fail: models that make a slip, each of which has to be told from the program.

use shift_model::slips::Slip;
use shift_model::Rules;

use crate::{play, Log, Place, Starter};

/// The first of these seeds whose log a slip shows in, compared with the model that makes none: it prints what the
/// program does, as the same logs show elsewhere, and is far quicker.
pub fn first_shown(slip: Slip, mut seeds: impl Iterator<Item = u64>) -> Option<u64> {
    let (right, slipping) = (Rules::default(), slip.rules());
    seeds.find(|&seed| {
        let log = Log::of(seed);
        log.told(&right) != log.told(&slipping)
    })
}

/// Whether a slip shows in the log of that seed, compared with what the program prints.
pub fn is_found(slip: Slip, seed: u64, place: &Place, starter: &Starter) -> bool {
    play(&Log::of(seed), &slip.rules(), place, starter).is_err()
}
