//! The third demand: requests rewritten as a later version of the protocol would send them change nothing but the copies
//! of unknown TLVs, their length and their flag. The run of a seed is played twice, the second time with most of its
//! requests rewritten.

mod counts;
mod flips;
mod kinds;
mod pair;
mod read;
mod rewrite;

use model::slips::Slip;
use model::Unit;
use random::Random;

pub use counts::Counts;

use crate::call::{Call, Play, Step};
use crate::driver::Driver;
use crate::later::flips::{flip, PARTS};
use crate::later::pair::Pair;
use crate::later::rewrite::Rewriting;
use crate::model_side::ModelSide;
use crate::run::{output, CALLS_A_RUN};
use crate::unit_side::UnitSide;

/// Plays both runs of that seed on the unit.
pub fn play(seed: u64, counts: &mut Counts) -> Result<(), String> {
    both(seed, [UnitSide::linked(), UnitSide::linked()], |pair| {
        counts.add(pair);
        pair.check()
    })
}

/// Plays them on a model that makes that slip.
pub fn play_slip(seed: u64, slip: Slip) -> Result<(), String> {
    both(seed, [Some(slip), Some(slip)].map(ModelSide::new), |pair| pair.check())
}

/// Plays them on the unit, and at each rewritten request flips a bit of each part of what the second run shows; how many
/// were flipped, each of which has to be found.
pub fn play_flips(seed: u64) -> Result<usize, String> {
    let (mut random, mut count) = (Random::of(seed), 0);
    both(seed, [UnitSide::linked(), UnitSide::linked()], |pair| {
        pair.check()?;
        if pair.rewriting.is_none() {
            return Ok(());
        }
        for part in PARTS {
            let place = random.number();
            if flip(&mut pair.new, part, place) {
                count += 1;
                pair.check().err().ok_or("a flipped bit is not found")?;
                flip(&mut pair.new, part, place);
            }
        }
        Ok(())
    })?;
    Ok(count)
}

/// Plays the run of that seed as it is on the first side, and with requests rewritten on the second.
fn both<Side: Play>(
    seed: u64,
    [mut first, mut second]: [Side; 2],
    mut judge: impl FnMut(&mut Pair) -> Result<(), &'static str>,
) -> Result<(), String> {
    let (mut driver, mut random, mut image) = (Driver::start(seed), Random::of(!seed), Vec::new());
    for number in 1..=CALLS_A_RUN {
        let step = driver.next();
        let rewriting = rewriting(&step, &image, &mut random);
        let (lent, later) = (output(&step, number), later(&step, rewriting.as_ref()));
        let (old, new) = (first.play(&step, &lent), second.play(&later, &lent));
        driver.look(&old.image);
        image = old.image.clone();
        let mut pair = Pair { call: &step.call, rewriting, lent: &lent, old, new };
        judge(&mut pair).map_err(|what| format!("seed {seed}, call {number}: {what}\n{pair}\nnow {}", later.call))?;
    }
    Ok(())
}

/// How the call is rewritten, if it is a request that can be; the image is the one that the last call left.
fn rewriting(step: &Step, image: &[u8], random: &mut Random) -> Option<Rewriting> {
    let Call::Frame { port, side, frame, .. } = &step.call else {
        return None;
    };
    let unit = Unit::load(step.lent.as_deref().unwrap_or(image)).ok()?;
    let start = unit.request_in(*port, *side, frame)?;
    (!random.one_in(8)).then(|| Rewriting::of(frame, start, random))
}

/// The step with its request rewritten.
fn later(step: &Step, rewriting: Option<&Rewriting>) -> Step {
    let mut later = step.clone();
    if let (Call::Frame { frame, .. }, Some(rewriting)) = (&mut later.call, rewriting) {
        *frame = rewriting.frame();
    }
    later
}
