//! B1 to B12.

use crate::support::*;
use model::Answer;

const MAC: [u8; 6] = PORT;

#[test]
fn b1_opens() {
    let request = [0x80, 0x39, 0, 8, 1, 0, 2, 0, 0, 0, 0, 1, 0x25, 0, 5, 1, 0, 0, 0, 0x3C, 0];
    let reply = [0x80, 0x38, 1, 8, 1, 0, 2, 0, 0, 0, 0, 1, 0x25, 0, 5, 1, 0, 0, 0, 0x3C, 0];
    assert_eq!(request[..], activate(60));
    let (answer, octets) = ask(&mut bench(), &request);
    assert_eq!((answer, octets), (Answer::Reply { length: 39 }, reply.to_vec()));
    assert_eq!(answer.number(), 4 | 39 << 32);
}

#[test]
fn b2_copies_behind_the_timer() {
    let timer = [0x25, 0, 5, 1, 0, 0, 0, 0x3C];
    let unknown = [9, 0, 1, 0xFF];
    let request = [&[0x81, 0x39, 0, 0x0A, 1, 0][..], &MAC, &[7, 7], &unknown, &timer, &[0]].concat();
    let reply = [&[0x80, 0x38, 5, 8, 1, 0][..], &MAC, &timer, &unknown, &[0]].concat();
    assert_eq!(ask(&mut bench(), &request).1, reply);
}

#[test]
fn b3_to_b7_codes() {
    let mut unit = bench();
    assert_eq!((code(&mut unit, &activate(60)), code(&mut unit, &activate(60))), (0, 4));
    assert_eq!(code(&mut bench(), &activate(60)[..20]), 1);
    assert_eq!(code(&mut bench(), &activate(0)), 6);
    assert_eq!(code(&mut bench(), &activate(86_400)), 0);
    assert_eq!(code(&mut bench(), &activate(86_401)), 6);
}

#[test]
fn b8_one_second_is_left() {
    let mut unit = bench();
    ask(&mut unit, &activate(60));
    assert_eq!(unit.tick(59_999), Answer::Done);
    let reply = ask(&mut unit, &pdu(0x80, 3, None)).1;
    assert_eq!(reply[..6], [0x80, 56, 1, 8, 3, 0]);
    assert_eq!(reply[12..], [37, 0, 5, 1, 0, 0, 0, 1, 0]);
}

#[test]
fn b9_closes_with_a_notice() {
    let mut unit = bench();
    ask(&mut unit, &activate(60));
    assert_eq!(unit.tick(60_000), Answer::Done);
    let (answer, octets) = unit.notice(ROOM);
    assert_eq!(answer, Answer::Notice { port: 1, side: 1, length: 31 });
    assert_eq!(answer.number(), 4 | 1 << 16 | 1 << 24 | 31 << 32);
    let expected = [&[0x80, 56, 0, 8, 2, 8][..], &MAC, &[0]].concat();
    assert_eq!(octets, soam(TESTER, PORT, VID_20, &expected));
    assert_eq!(unit.notice(ROOM).0, Answer::Refused(7));
}

#[test]
fn b10_elapsed_wraps() {
    let mut unit = bench();
    assert_eq!(unit.restart(4_294_967_290), Answer::Done);
    ask(&mut unit, &activate(60));
    assert_eq!(unit.tick(10), Answer::Done);
    let state = image::State::read(&unit.image()).expect("a valid state");
    assert_eq!(state.sessions[0].ms_left, 60_000 - 16);
}

#[test]
fn b11_too_long_a_step() {
    let mut unit = bench();
    assert_eq!(unit.tick(2_147_483_648), Answer::Refused(5));
    assert_eq!(unit.tick(2_147_483_647), Answer::Done);
    assert_eq!(unit.tick(4_294_967_295), Answer::Refused(5));
    assert_eq!(unit.tick(2_147_483_646), Answer::Refused(5));
}

#[test]
fn b12_another_vid_is_forwarded() {
    let mut unit = bench();
    ask(&mut unit, &activate(60));
    let to = [2, 0, 0, 0, 0, 0xBB];
    assert_eq!(unit.frame(1, CEN, &data(to, VID_30), ROOM), (Answer::Forward, Vec::new()));
    assert_eq!(unit.frame(1, CEN, &data(to, VID_20), ROOM).0, Answer::Loop { length: 21 });
}
