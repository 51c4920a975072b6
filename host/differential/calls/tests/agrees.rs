//! The unit against the model, on runs of set seeds.

use calls::{play, Coverage, CALLS_A_RUN};
use random::{given_seed, tell};

const RUNS: u64 = 600;

#[test]
fn agrees() {
    let first = given_seed().unwrap_or(1);
    let last = first + RUNS - 1;
    tell(&format!("agrees: seeds {first} to {last}, {CALLS_A_RUN} calls each"));
    let mut coverage = Coverage::default();
    for seed in first..=last {
        if let Err(difference) = play(seed, None, &mut coverage) {
            panic!("{difference}");
        }
    }
    for (name, count) in coverage.table() {
        tell(&format!("agrees: {count:7} {name}"));
    }
    tell(&format!("agrees: {} calls, no difference", coverage.calls));
    assert!(coverage.missing().is_empty(), "never reached: {:?}", coverage.missing());
    assert!(coverage.impossible().is_empty(), "reached, though impossible: {:?}", coverage.impossible());
}
