//! The plan's rules: each reason, their order, and plans that are good.

use crate::plans_listed;
use crate::support::*;
use model::{Flaw, Unit};
use std::collections::BTreeSet;

#[test]
fn each_text_has_its_line_and_reason() {
    for (text, line, reason) in plans_listed::all() {
        let found = Unit::make(&text, 5).err().map_or((0, 0), |fault| (fault.line, fault.reason));
        assert_eq!(found, (line, reason), "{:?}", String::from_utf8_lossy(&text));
    }
}

#[test]
fn every_flaw_is_met() {
    let texts = plans_listed::all();
    let flaws = texts.iter().filter_map(|(text, ..)| Unit::make(text, 0).err());
    let met: BTreeSet<Flaw> = flaws.map(|fault| fault.flaw).collect();
    let missing: Vec<&Flaw> = Flaw::ALL.iter().filter(|flaw| !met.contains(flaw)).collect();
    assert!(missing.is_empty(), "{missing:?}");
}

#[test]
fn the_order_of_lines_is_no_part_of_the_state() {
    let one = "port\t2\tenni\t020000000002\nport\t1\tuni\t020000000001\n\
               flow\t1\t2\ts\t20\nflow\t2\t1\tc\t30\nmp\t1\tup\t4\nmp\t1\tdown\t3\n";
    let other = "port\t1\tuni\t020000000001\nflow\t2\t1\tc\t30\nport\t2\tenni\t020000000002\n\
                 flow\t1\t2\ts\t20\nmp\t1\tdown\t3\nmp\t1\tup\t4\n";
    let image = |text: &str| Unit::make(text.as_bytes(), 9).expect("a good plan").image();
    assert_eq!(image(one), image(other));
    assert_eq!(image(one)[..4], [9, 0, 0, 0]);
}

#[test]
fn flows_start_prohibited() {
    let unit = Unit::make(BENCH, 0).expect("a good plan");
    assert_eq!(unit.image()[32..64], [0; 32]);
}
