//! What a difference looks like.

use calls::{play, Coverage};
use model::slips::Slip;

/// Shown with a slip in the model; the README has it.
#[test]
fn report() {
    let Err(difference) = play(5, Some(Slip::named("ExpiryOneLate")), &mut Coverage::default()) else {
        panic!("the slip is not found");
    };
    let report: String = difference.to_string().lines().map(|line| format!("    {line}\n")).collect();
    assert!(include_str!("../../../../README.md").contains(&report), "the README has not\n{report}");
}
