//! Each of the model's planted slips is found by the runs that unit and model agree in.

use calls::{bites, CALLS_A_RUN};
use model::slips::Slip;
use random::{given_seed, tell};

const MOST_RUNS: usize = 100;

#[test]
fn bites() {
    let first = given_seed().unwrap_or(1);
    let mut hidden = Slip::all();
    for (run, seed) in (first..).enumerate().take(MOST_RUNS) {
        if hidden.is_empty() {
            break;
        }
        hidden = bites::play(seed, &hidden, |slip, number| {
            tell(&format!("bites: {} is found at call {}", slip.name, run * CALLS_A_RUN + number));
        });
    }
    let (all, found) = (Slip::all().len(), Slip::all().len() - hidden.len());
    tell(&format!("bites: {found} of {all} slips found, seeds from {first}"));
    assert!(hidden.is_empty(), "not found: {hidden:?}");
}
