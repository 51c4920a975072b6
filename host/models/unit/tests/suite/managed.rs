//! Allow, prohibit, restart and the order of notices.

use crate::support::*;
use model::{Answer, Unit};

fn open(unit: &mut Unit, source: [u8; 6], tag: [u8; 4], seconds: u32) {
    let frame = soam(PORT, source, tag, &activate(seconds));
    assert_eq!(unit.frame(1, CEN, &frame, ROOM).1[23], 0);
}

/// Source and code of the next notice.
fn notice(unit: &mut Unit) -> ([u8; 6], u8) {
    let (answer, octets) = unit.notice(ROOM);
    assert_eq!(answer, Answer::Notice { port: 1, side: 1, length: 31 });
    (octets[..6].try_into().expect("an address"), octets[23])
}

const LOW: [u8; 6] = [0, 0, 0, 0, 0, 5];
const HIGH: [u8; 6] = [0xFE, 0, 0, 0, 0, 5];

#[test]
fn notices_leave_by_flow_then_source() {
    let mut unit = bench_with(b"mp\t2\tup\t4\n");
    unit.allow(2);
    open(&mut unit, LOW, VID_30, 1);
    open(&mut unit, HIGH, VID_20, 2);
    open(&mut unit, LOW, VID_20, 3);
    unit.tick(5000);
    assert_eq!([(); 3].map(|_| notice(&mut unit)), [(LOW, 8), (HIGH, 8), (LOW, 8)]);
    assert_eq!(unit.notice(ROOM).0, Answer::Refused(7));
}

#[test]
fn prohibit_closes_its_own_flow() {
    let mut unit = bench_with(b"mp\t2\tup\t4\n");
    unit.allow(2);
    open(&mut unit, HIGH, VID_20, 60);
    open(&mut unit, LOW, VID_30, 60);
    assert_eq!(unit.prohibit(1), Answer::Done);
    assert_eq!(notice(&mut unit), (HIGH, 9));
    let image = unit.image();
    assert_eq!(unit.prohibit(1), Answer::Done);
    assert_eq!(unit.allow(2), Answer::Done);
    assert_eq!(unit.image(), image);
    let frame = soam(PORT, LOW, VID_30, &activate(60));
    assert_eq!(unit.frame(1, CEN, &frame, ROOM).1[23], 4);
}

#[test]
fn restart_closes_all_and_keeps_prohibitions() {
    let mut unit = bench();
    open(&mut unit, LOW, VID_20, 1);
    open(&mut unit, HIGH, VID_20, 60);
    unit.tick(1000);
    assert_eq!(unit.restart(3), Answer::Done);
    let mut fresh = bench();
    fresh.tick(3);
    assert_eq!(unit.image(), fresh.image());
}

#[test]
fn time_is_used_up_by_ticks() {
    let mut unit = bench();
    open(&mut unit, LOW, VID_20, 1);
    assert_eq!(unit.tick(0), Answer::Done);
    assert_eq!(unit.tick(999), Answer::Done);
    assert_eq!(unit.notice(ROOM).0, Answer::Refused(7));
    assert_eq!(unit.tick(1000), Answer::Done);
    assert_eq!(notice(&mut unit), (LOW, 8));
}

#[test]
fn a_refresh_keeps_the_first_tag() {
    let mut unit = bench();
    open(&mut unit, LOW, [0x81, 0, 0x20, 20], 1);
    let again = soam(PORT, LOW, [0x81, 0, 0x40, 20], &activate(1));
    assert_eq!(unit.frame(1, CEN, &again, ROOM).1[23], 4);
    unit.tick(1000);
    assert_eq!(unit.notice(ROOM).1[12..16], [0x81, 0, 0x20, 20]);
}
