//! The library for x86-64 against the model, on the emulator of a machine that links another.

#![cfg(not(target_arch = "x86_64"))]

use calls::{play_emulated, Coverage};
use model::slips::Slip;
use random::tell;

/// So many that everything is reached.
const RUNS: u64 = 120;

#[test]
fn agrees() {
    let mut coverage = Coverage::default();
    for seed in 1..=RUNS {
        if let Err(difference) = play_emulated(seed, None, &mut coverage) {
            panic!("{difference}");
        }
    }
    tell(&format!("emulated: {} calls, seeds 1 to {RUNS}, no difference", coverage.calls));
    assert!(coverage.missing().is_empty(), "never reached: {:?}", coverage.missing());
}

#[test]
fn finds_a_slip() {
    assert!(
        play_emulated(5, Some(Slip::named("ExpiryOneLate")), &mut Coverage::default()).is_err(),
        "the slip is not found"
    );
}
