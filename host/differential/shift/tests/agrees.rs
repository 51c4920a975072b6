//! The program against its model, on logs of set seeds.

use random::{given_seed, tell};
use shift_runs::play_many;

const LOGS: u64 = 3_000;
const THREADS: usize = 2;

#[test]
fn agrees() {
    let first = given_seed().unwrap_or(1);
    let last = first + LOGS - 1;
    tell(&format!("shift: logs of seeds {first} to {last}"));
    let coverage = play_many(first..=last, THREADS).unwrap_or_else(|difference| panic!("{difference}"));
    for (name, count) in coverage.table() {
        tell(&format!("shift: {count:7} {name}"));
    }
    tell(&format!("shift: {} logs, {} lines printed, no difference", coverage.logs, coverage.lines));
    assert!(coverage.missing().is_empty(), "never reached: {:?}", coverage.missing());
    assert!(coverage.impossible().is_empty(), "reached, though impossible: {:?}", coverage.impossible());
}
