//! A run: the calls of one seed, on both sides.

use model::slips::Slip;

use crate::call::{Play, Step};
use crate::coverage::Coverage;
use crate::difference::{At, Difference};
use crate::driver::Driver;
use crate::model_side::ModelSide;
use crate::scene::Scene;
use crate::unit_side::UnitSide;

pub const CALLS_A_RUN: usize = 1000;

/// Plays the run of that seed up to the first difference, if there is one. The model makes a slip where it is told to.
pub fn play(seed: u64, slip: Option<Slip>, coverage: &mut Coverage) -> Result<(), Box<Difference>> {
    play_on(UnitSide::linked(), seed, slip, coverage)
}

/// The same with the library for x86-64, on the emulator.
#[cfg(not(target_arch = "x86_64"))]
pub fn play_emulated(seed: u64, slip: Option<Slip>, coverage: &mut Coverage) -> Result<(), Box<Difference>> {
    play_on(UnitSide::emulated(), seed, slip, coverage)
}

fn play_on(mut unit: UnitSide, seed: u64, slip: Option<Slip>, coverage: &mut Coverage) -> Result<(), Box<Difference>> {
    let (mut driver, mut model) = (Driver::start(seed), ModelSide::new(slip));
    for number in 1..=CALLS_A_RUN {
        let step = driver.next();
        let before = Scene::state_before(&step, driver.state());
        let out = output(&step, number);
        let (shown, expected) = (unit.play(&step, &out), model.play(&step, &out));
        if let Some(difference) = Difference::between(At { seed, slip, number }, &step.call, &shown, &expected) {
            return Err(Box::new(difference));
        }
        driver.look(&shown.image);
        coverage.add(model.take_marks(), &Scene { step: &step, before, answer: shown.answer, after: driver.state() });
    }
    Ok(())
}

/// What stands in the output before the call: unlike what stood there at the call before.
pub(crate) fn output(step: &Step, number: usize) -> Vec<u8> {
    (number..number + step.call.out_len()).map(|place| (place * 31 % 251) as u8).collect()
}
