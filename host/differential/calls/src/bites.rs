//! That the comparison can fail: models that make a slip, each of which has to be told from the unit.

use model::slips::Slip;

use crate::call::Play;
use crate::difference::{At, Difference};
use crate::driver::Driver;
use crate::model_side::ModelSide;
use crate::run::{output, CALLS_A_RUN};
use crate::unit_side::UnitSide;

/// Plays the run of that seed with a model for each slip. The slips that it does not show are left over; of the others
/// `tell` is told, with the number of the call that shows it.
pub fn play(seed: u64, slips: &[Slip], mut tell: impl FnMut(Slip, usize)) -> Vec<Slip> {
    let (mut driver, mut unit) = (Driver::start(seed), UnitSide::linked());
    let mut hidden: Vec<(Slip, ModelSide)> = slips.iter().map(|&slip| (slip, ModelSide::new(Some(slip)))).collect();
    for number in 1..=CALLS_A_RUN {
        let step = driver.next();
        let out = output(&step, number);
        let shown = unit.play(&step, &out);
        hidden.retain_mut(|(slip, model)| {
            let at = At { seed, slip: Some(*slip), number };
            let stays = Difference::between(at, &step.call, &shown, &model.play(&step, &out)).is_none();
            if !stays {
                tell(*slip, number);
            }
            stays
        });
        driver.look(&shown.image);
    }
    hidden.into_iter().map(|(slip, _)| slip).collect()
}
