//! Malformed requests, each kind of them, and requests that only look so.

use crate::support::*;
use model::{Malformed, Mark};

/// The kind of a request that gets code 1 and no TLV.
fn kind(pdu: &[u8]) -> Malformed {
    let mut unit = bench();
    let reply = ask(&mut unit, pdu).1;
    assert_eq!(reply[..6], [0x80, 56, 0, 8, pdu[4], 1]);
    assert_eq!(reply[6..], [2, 0, 0, 0, 0, 1, 0]);
    let marks = unit.take_marks();
    let kind = marks.iter().find_map(|mark| match mark {
        Mark::Malformed(kind) => Some(*kind),
        _ => None,
    });
    kind.expect("malformed")
}

/// A request of that type with these TLVs.
fn with(message_type: u8, tlvs: &[u8]) -> Vec<u8> {
    let mut pdu = pdu(0x80, message_type, None);
    pdu.truncate(12);
    pdu.extend(tlvs);
    pdu
}

fn with_head(first: u8, offset: u8, pdu: &[u8]) -> Vec<u8> {
    let mut pdu = pdu.to_vec();
    (pdu[0], pdu[3]) = (first, offset);
    pdu
}

const TIMER: [u8; 8] = [37, 0, 5, 1, 0, 0, 0, 60];

#[test]
fn each_kind() {
    let state = pdu(0x80, 3, None);
    let mut other_port = state.clone();
    other_port[11] = 2;
    assert_eq!(kind(&other_port), Malformed::UnlikeAddress);
    assert_eq!(kind(&with_head(0x80, 9, &state)), Malformed::FirstVersionOffset);
    assert_eq!(kind(&with_head(0x80, 7, &state)), Malformed::FirstVersionOffset);
    assert_eq!(kind(&with_head(0x81, 7, &state)), Malformed::LaterVersionOffset);
    assert_eq!(kind(&with_head(0x9F, 9, &state)), Malformed::NoEnd);
    assert_eq!(kind(&with_head(0x9F, 255, &state)), Malformed::NoEnd);
    assert_eq!(kind(&with(3, &[])), Malformed::NoEnd);
    assert_eq!(kind(&with(3, &[9, 0, 1, 7])), Malformed::NoEnd);
    assert_eq!(kind(&with(3, &[9])), Malformed::CutLength);
    assert_eq!(kind(&with(3, &[9, 0])), Malformed::CutLength);
    assert_eq!(kind(&with(3, &[9, 0, 2, 0])), Malformed::ValuePastPdu);
    assert_eq!(kind(&with(3, &[9, 1, 0, 0])), Malformed::ValuePastPdu);
    assert_eq!(kind(&with(3, &[37, 0, 0, 0])), Malformed::EmptyLatching);
    assert_eq!(kind(&with(3, &[37, 0, 4, 1, 0, 0, 0, 0])), Malformed::TimerLength);
    assert_eq!(kind(&with(9, &[37, 0, 6, 1, 0, 0, 0, 0, 0, 0])), Malformed::TimerLength);
    assert_eq!(kind(&with(2, &[&TIMER[..], &TIMER, &[0]].concat())), Malformed::SecondTimer);
    assert_eq!(kind(&with(1, &[0])), Malformed::NoTimer);
    assert_eq!(kind(&with(1, &[&[0][..], &TIMER, &[0]].concat())), Malformed::NoTimer);
    assert_eq!(kind(&with(1, &[37, 0, 5, 2, 0, 0, 0, 60, 0])), Malformed::NoTimer);
}

#[test]
fn requests_that_are_fine() {
    let fine = |message_type, tlvs: &[u8]| code(&mut bench(), &with(message_type, tlvs));
    assert_eq!(fine(3, &[&TIMER[..], &[0]].concat()), 0);
    assert_eq!(fine(2, &[&TIMER[..], &[0]].concat()), 5);
    assert_eq!(fine(3, &[37, 0, 1, 7, 37, 0, 1, 7, 0]), 0);
    assert_eq!(fine(3, &[9, 0, 0, 0]), 0);
    assert_eq!(fine(1, &[&TIMER[..], &[0, 37, 0]].concat()), 0);
    assert_eq!(fine(0, &[0]), 10);
    assert_eq!(fine(4, &[0]), 10);
    assert_eq!(fine(255, &[0]), 10);
    let more = with_head(0x81, 10, &with(3, &[1, 2, 0]));
    assert_eq!(code(&mut bench(), &more), 0);
}

#[test]
fn no_timer_is_malformed_before_the_machine() {
    let mut unit = bench();
    ask(&mut unit, &activate(60));
    let reply = ask(&mut unit, &with(1, &[0])).1;
    assert_eq!(reply[2..6], [1, 8, 1, 1]);
}
