//! Data at an active machine.

use crate::support::*;
use model::{Answer, Unit};

fn active() -> Unit {
    let mut unit = bench_with(b"mp\t1\tup\t6\n");
    ask(&mut unit, &activate(60));
    unit
}

const OTHER: [u8; 6] = [2, 0, 0, 0, 0, 0xBB];

#[test]
fn looped_from_the_activating_side_only() {
    let mut unit = active();
    let frame = data(OTHER, VID_20);
    let (answer, octets) = unit.frame(1, CEN, &frame, ROOM);
    assert_eq!(answer, Answer::Loop { length: 21 });
    assert_eq!(octets, [&TESTER[..], &OTHER, &frame[12..]].concat());
    assert_eq!(unit.frame(1, EXTERNAL, &frame, ROOM), (Answer::Drop, Vec::new()));
}

#[test]
fn group_destinations_are_answered_by_the_port() {
    let mut unit = active();
    for to in [[0xFF; 6], [1, 0x80, 0xC2, 0, 0, 0x3F], [3, 0, 0, 0, 0, 1]] {
        let octets = unit.frame(1, CEN, &data(to, VID_20), ROOM).1;
        assert_eq!(octets[..12], [TESTER, PORT].concat());
    }
}

#[test]
fn soam_at_or_below_the_level_passes() {
    let mut unit = active();
    let mut answer = |side, pdu: &[u8]| unit.frame(1, side, &soam(OTHER, TESTER, VID_20, pdu), ROOM).0;
    for side in [CEN, EXTERNAL] {
        assert_eq!(answer(side, &[]), Answer::Forward);
        assert_eq!(answer(side, &[0x9F]), Answer::Forward);
        assert_eq!(answer(side, &[0x80, 1, 0, 0]), Answer::Forward);
        assert_eq!(answer(side, &[0x60, 57, 0, 0]), Answer::Forward);
    }
    assert_eq!(answer(CEN, &[0xA0]), Answer::Loop { length: 19 });
    assert_eq!(answer(EXTERNAL, &[0xA0]), Answer::Drop);
    assert_eq!(answer(CEN, &pdu(0xE0, 3, None)), Answer::Loop { length: 31 });
}

#[test]
fn requests_above_the_level_reach_their_mp() {
    assert_eq!(code(&mut active(), &pdu(0xC0, 1, Some(9))), 7);
}

#[test]
fn other_sources_are_forwarded() {
    let mut unit = active();
    let mut frame = data(OTHER, VID_20);
    frame[6] = 6;
    assert_eq!(unit.frame(1, CEN, &frame, ROOM).0, Answer::Forward);
}
