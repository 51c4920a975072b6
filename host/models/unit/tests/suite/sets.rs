//! Finding the machine: frames without a set, and sets that do not touch one another.

use crate::support::*;
use model::{Answer, Mark, NoSet, Unit};

fn no_set(unit: &mut Unit, frame: &[u8]) -> NoSet {
    unit.take_marks();
    assert_eq!(unit.frame(1, CEN, frame, ROOM), (Answer::Forward, Vec::new()));
    let marks = unit.take_marks();
    let kind = marks.iter().find_map(|mark| match mark {
        Mark::NoSet(kind) => Some(*kind),
        _ => None,
    });
    kind.expect("no set")
}

#[test]
fn frames_without_a_set() {
    let mut unit = bench_with(b"flow\t3\t1\tu\t0\nmp\t3\tup\t4\n");
    assert_eq!(unit.allow(3), Answer::Done);
    let request = activate(60);
    let untagged = [&PORT[..], &TESTER, &[0x89, 2], &request].concat();
    assert_eq!(unit.frame(1, CEN, &untagged, ROOM).0, Answer::Reply { length: 35 });
    assert_eq!(ask(&mut unit, &request).1[5], 0);
    let tagged = |tag| soam(PORT, TESTER, tag, &request);
    assert_eq!(no_set(&mut unit, &tagged([0x88, 0xA8, 0, 20])), NoSet::WrongTag);
    assert_eq!(no_set(&mut unit, &tagged([0x81, 0, 0xE0, 0])), NoSet::VidZero);
    assert_eq!(no_set(&mut unit, &tagged([0x81, 0, 0xFF, 0xFF])), NoSet::VidLast);
    assert_eq!(no_set(&mut unit, &tagged([0x81, 0, 0, 21])), NoSet::SetAbsent);
    assert_eq!(no_set(&mut unit, &tagged(VID_20)[..17]), NoSet::CutTag);
    let mut group = tagged(VID_20);
    group[6] |= 1;
    assert_eq!(no_set(&mut unit, &group), NoSet::GroupSource);
}

#[test]
fn oam_under_a_second_tag_is_data() {
    let mut unit = bench();
    let inner = [&[0x81, 0, 0, 20, 0x89, 2][..], &activate(60)].concat();
    let frame = [&PORT[..], &TESTER, &VID_20, &inner].concat();
    assert_eq!(unit.frame(1, CEN, &frame, ROOM).0, Answer::Forward);
    ask(&mut unit, &activate(60));
    assert_eq!(unit.frame(1, CEN, &frame, ROOM).0, Answer::Loop { length: frame.len() });
}

#[test]
fn priority_bits_are_no_part_of_the_set() {
    let mut unit = bench();
    let tag = [0x81, 0, 0xF0, 20];
    let (answer, octets) = unit.frame(1, CEN, &soam(PORT, TESTER, tag, &activate(1)), ROOM);
    assert_eq!((answer, &octets[12..16]), (Answer::Reply { length: 39 }, &tag[..]));
    assert_eq!(code(&mut unit, &activate(1)), 4);
    unit.tick(1000);
    assert_eq!(unit.notice(ROOM).1[12..16], tag);
}

#[test]
fn zero_and_own_sources_are_testers() {
    let mut unit = bench();
    for source in [[0; 6], PORT] {
        assert_eq!(ask_from(&mut unit, CEN, source, &activate(1)).1[5], 0);
    }
}

#[test]
fn equal_vids_on_two_ports_are_two_machines() {
    let mut unit = bench_with(b"port\t2\tuni\t020000000002\nflow\t3\t2\tc\t20\n");
    assert_eq!(unit.allow(3), Answer::Done);
    ask(&mut unit, &activate(60));
    assert_eq!(unit.frame(2, CEN, &data([2; 6], VID_20), ROOM).0, Answer::Forward);
}
