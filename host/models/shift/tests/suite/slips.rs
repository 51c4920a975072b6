//! The slips by their names.

use shift_model::slips;
use std::collections::BTreeSet;

const LEAST_SLIPS: usize = 100;

#[test]
fn each_slip_has_a_name_of_its_own() {
    let names: BTreeSet<&str> = slips::all().iter().map(|slip| slip.name).collect();
    assert_eq!(names.len(), slips::all().len());
    assert!(names.len() >= LEAST_SLIPS, "{} slips", names.len());
}
