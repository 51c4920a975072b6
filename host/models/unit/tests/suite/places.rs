//! Whether a frame is for an MP, and steps 1 and 2.

use crate::support::*;
use model::{Answer, Mark, NotForMp, Unit};

const CLASS_TWO_4: [u8; 6] = [1, 0x80, 0xC2, 0, 0, 0x3C];

fn data_kind(unit: &mut Unit, side: u32, to: [u8; 6], pdu: &[u8]) -> NotForMp {
    unit.take_marks();
    assert_eq!(unit.frame(1, side, &soam(to, TESTER, VID_20, pdu), ROOM).0, Answer::Forward);
    let marks = unit.take_marks();
    let kind = marks.iter().find_map(|mark| match mark {
        Mark::Data(kind) => Some(*kind),
        _ => None,
    });
    kind.expect("data")
}

#[test]
fn frames_that_are_not_for_an_mp() {
    let mut unit = bench();
    let state = pdu(0x80, 3, None);
    let mut kind = |side, to, pdu: &[u8]| data_kind(&mut unit, side, to, pdu);
    assert_eq!(kind(CEN, PORT, &[]), NotForMp::NoOpcode);
    assert_eq!(kind(CEN, PORT, &[0x80]), NotForMp::NoOpcode);
    assert_eq!(kind(CEN, PORT, &[0x80, 56, 0, 8]), NotForMp::OtherOpcode);
    assert_eq!(kind(CEN, PORT, &pdu(0xA0, 3, None)), NotForMp::NoMpAtLevel);
    assert_eq!(kind(EXTERNAL, PORT, &state), NotForMp::MpFacesAway);
    assert_eq!(kind(CEN, TESTER, &state), NotForMp::OtherDestination);
    assert_eq!(kind(CEN, [1, 0x80, 0xC2, 0, 0, 0x34], &state), NotForMp::OtherDestination);
    assert_eq!(kind(CEN, [1, 0x80, 0xC2, 0, 0, 0x3D], &state), NotForMp::MulticastOtherLevel);
    assert_eq!(kind(CEN, CLASS_TWO_4, &state[..11]), NotForMp::MulticastShort);
    assert_eq!(kind(CEN, CLASS_TWO_4, &activate(1)), NotForMp::MulticastWrongType);
    assert_eq!(unit.frame(1, CEN, &data(PORT, VID_20), ROOM).0, Answer::Forward);
    assert!(unit.take_marks().contains(&Mark::Data(NotForMp::NotSoam)));
}

#[test]
fn short_requests_are_dropped() {
    let mut unit = bench();
    let state = pdu(0x80, 3, None);
    for length in 2..12 {
        assert_eq!(ask(&mut unit, &state[..length]).0, Answer::Drop);
    }
    assert_eq!(ask(&mut unit, &state[..12]).1[5], 1);
}

#[test]
fn multicast_at_a_mep_and_at_a_mip() {
    let mut unit = bench_with(b"mp\t1\tmip\t2\n");
    let mut state = pdu(0x80, 3, None);
    state[6..12].fill(0xEE);
    let frame = soam(CLASS_TWO_4, TESTER, VID_20, &state);
    let (answer, octets) = unit.frame(1, CEN, &frame, ROOM);
    assert_eq!(answer, Answer::Reply { length: 39 });
    assert_eq!(octets[..12], [TESTER, PORT].concat());
    assert_eq!(octets[24..30], PORT);
    state[0] = 0x40;
    let frame = soam([1, 0x80, 0xC2, 0, 0, 0x3A], TESTER, VID_20, &state);
    assert_eq!(unit.frame(1, CEN, &frame, ROOM).0, Answer::ReplyAndForward { length: 39 });
    let cut = &frame[..frame.len() - 1];
    assert_eq!(unit.frame(1, CEN, cut, ROOM).0, Answer::ReplyAndForward { length: 31 });
}

#[test]
fn prohibited_flows_are_silent() {
    let mut unit = bench_with(b"mp\t1\tmip\t2\n");
    assert_eq!(unit.prohibit(1), Answer::Done);
    let (state, low) = (pdu(0x80, 3, None), pdu(0x40, 3, None));
    let mut answer = |to, pdu: &[u8]| unit.frame(1, CEN, &soam(to, TESTER, VID_20, pdu), ROOM).0;
    assert_eq!(answer(PORT, &state), Answer::Drop);
    assert_eq!(answer(PORT, &low), Answer::Drop);
    assert_eq!(answer(CLASS_TWO_4, &state), Answer::Drop);
    assert_eq!(answer([1, 0x80, 0xC2, 0, 0, 0x3A], &low), Answer::Forward);
    assert_eq!(answer([1, 0x80, 0xC2, 0, 0, 0x3A], &low[..12]), Answer::Forward);
}
