//! Every slip is found by comparing with the unit that makes none.

use crate::plans_listed;
use crate::walk::{Walk, STEPS};
use model::slips::Slip;
use model::{Answer, Unit};

const WALKS: u64 = 400;

#[test]
fn every_slip_is_found() {
    let is_hidden = |slip: &Slip| !shows_in_plans(*slip) && !shows_in_walks(*slip);
    let hidden: Vec<Slip> = Slip::all().into_iter().filter(is_hidden).collect();
    assert!(hidden.is_empty(), "{hidden:?}");
}

fn shows_in_plans(slip: Slip) -> bool {
    let made = |unit: Result<Unit, _>| unit.map(|unit| unit.image()).map_err(Answer::from);
    let texts = plans_listed::all();
    texts.iter().any(|(text, ..)| made(Unit::make(text, 7)) != made(Unit::make_by(slip.rules(), text, 7)))
}

fn shows_in_walks(slip: Slip) -> bool {
    let found = (0..WALKS).find(|&seed| shows_in_walk(slip, seed));
    println!("{}: {found:?}", slip.name);
    found.is_some()
}

fn shows_in_walk(slip: Slip, seed: u64) -> bool {
    let (mut walk, mut unit) = Walk::start(seed);
    let mut slipping = unit.clone().going_by(slip.rules());
    (0..STEPS).any(|_| {
        let call = walk.next(&unit);
        call.hand_to(&mut unit) != call.hand_to(&mut slipping) || unit.image() != slipping.image()
    })
}

/// A slip leads to wrong answers, never to a stop.
#[test]
fn slipping_units_run_on() {
    for slip in Slip::all() {
        for seed in 0..12 {
            let (mut walk, mut unit) = Walk::start(seed);
            let mut slipping = unit.clone().going_by(slip.rules());
            for _ in 0..STEPS {
                let call = walk.next(&unit);
                call.hand_to(&mut unit);
                call.hand_to(&mut slipping);
                slipping.image();
            }
        }
    }
}
