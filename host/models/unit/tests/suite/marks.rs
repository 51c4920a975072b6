//! Every mark occurs in the listed plans and the random walks; `cargo test -- --nocapture` prints
//! how often.

use crate::plans_listed;
use crate::walk::{Walk, STEPS};
use model::{Mark, Unit};
use std::collections::BTreeMap;

#[test]
fn every_mark_occurs() {
    let mut counts: BTreeMap<Mark, usize> = BTreeMap::new();
    let mut count = |marks: Vec<Mark>| {
        for mark in marks {
            *counts.entry(mark).or_default() += 1;
        }
    };
    for (text, ..) in plans_listed::all() {
        let made = Unit::make(&text, 0);
        count(made.map_or_else(|fault| fault.marks(), |mut unit| unit.take_marks()));
    }
    (0..200).for_each(|seed| count(walk(seed)));
    let all = Mark::all();
    for mark in &all {
        println!("{:8} {mark:?}", counts.get(mark).copied().unwrap_or(0));
    }
    let missing: Vec<&Mark> = all.iter().filter(|mark| !counts.contains_key(mark)).collect();
    assert!(missing.is_empty(), "{missing:?}");
    let unknown: Vec<&Mark> = counts.keys().filter(|mark| !all.contains(mark)).collect();
    assert!(unknown.is_empty(), "{unknown:?}");
}

/// The marks of a walk in which every image is read back.
fn walk(seed: u64) -> Vec<Mark> {
    let (mut walk, mut unit) = Walk::start(seed);
    for _ in 0..STEPS {
        let image = unit.image();
        assert_eq!(Unit::load(&image).expect("a valid state").image(), image);
        walk.next(&unit).hand_to(&mut unit);
    }
    unit.take_marks()
}
