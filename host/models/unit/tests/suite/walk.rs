//! Random walks: a unit of the walks' plan and calls handed to it one after another.

use crate::calls::{self, Call};
use crate::frames;
use model::Unit;
use random::Random;

pub const STEPS: usize = 250;

pub struct Walk {
    rng: Random,
    in_crowd: bool,
    /// Calls that come before the random ones: most flows are allowed.
    waiting: Vec<Call>,
}

impl Walk {
    pub fn start(seed: u64) -> (Walk, Unit) {
        let mut rng = Random::of(seed);
        let clock = rng.pick(&[0, 1, 5_000, 0x7FFF_FFFF, 4_294_967_290]);
        let unit = Unit::make(frames::PLAN, clock).expect("a good plan");
        let waiting = (1..=6).filter(|_| !rng.one_in(8)).map(Call::Allow).collect();
        (Walk { rng, in_crowd: seed & 3 == 0, waiting }, unit)
    }

    /// The next call, which depends on the state that the unit is in.
    pub fn next(&mut self, unit: &Unit) -> Call {
        let state = image::State::read(&unit.image()).expect("a valid state");
        let waiting = self.waiting.pop();
        waiting.unwrap_or_else(|| calls::random(&mut self.rng, self.in_crowd, &state))
    }
}
