//! The nine cells, the full table, and the seconds of replies.

use crate::support::*;
use model::Unit;

/// Up at level 4, a MIP at level 2, down at level 6.
fn three_mps() -> Unit {
    bench_with(b"mp\t1\tmip\t2\nmp\t1\tdown\t6\n")
}

/// Flags, code and what follows the port address.
fn answer(unit: &mut Unit, side: u32, pdu: &[u8]) -> (u8, u8, Vec<u8>) {
    let reply = ask_from(unit, side, TESTER, pdu).1;
    (reply[2], reply[5], reply[12..].to_vec())
}

fn timer(seconds: u8) -> Vec<u8> {
    vec![37, 0, 5, 1, 0, 0, 0, seconds, 0]
}

#[test]
fn the_inactive_column() {
    let mut unit = three_mps();
    assert_eq!(answer(&mut unit, CEN, &pdu(0x80, 2, None)), (0, 5, vec![0]));
    assert_eq!(answer(&mut unit, CEN, &pdu(0x80, 3, None)), (0, 0, timer(0)));
    assert_eq!(answer(&mut unit, CEN, &activate(0)), (0, 6, timer(0)));
    assert_eq!(answer(&mut unit, CEN, &activate(9)), (1, 0, timer(9)));
}

#[test]
fn the_same_mp() {
    let mut unit = three_mps();
    let low = |message_type, seconds| pdu(0x40, message_type, seconds);
    assert_eq!(answer(&mut unit, EXTERNAL, &low(1, Some(9))), (3, 0, timer(9)));
    unit.tick(1);
    assert_eq!(answer(&mut unit, EXTERNAL, &low(1, Some(86_401))), (3, 6, timer(9)));
    assert_eq!(answer(&mut unit, EXTERNAL, &low(1, Some(5))), (3, 4, timer(5)));
    assert_eq!(answer(&mut unit, EXTERNAL, &low(3, None)), (3, 0, timer(5)));
    assert_eq!(answer(&mut unit, EXTERNAL, &low(2, None)), (0, 0, vec![0]));
    assert_eq!(answer(&mut unit, EXTERNAL, &low(2, None)), (0, 5, vec![0]));
}

#[test]
fn another_mp() {
    let mut unit = three_mps();
    let low = |message_type, seconds| pdu(0x40, message_type, seconds);
    answer(&mut unit, EXTERNAL, &low(1, Some(9)));
    for seconds in [0, 60] {
        assert_eq!(answer(&mut unit, CEN, &low(1, Some(seconds))), (3, 7, timer(9)));
        assert_eq!(answer(&mut unit, CEN, &activate(seconds)), (3, 7, timer(9)));
    }
    assert_eq!(answer(&mut unit, EXTERNAL, &pdu(0xC0, 2, None)), (3, 7, vec![0]));
    assert_eq!(answer(&mut unit, CEN, &low(2, None)), (3, 7, vec![0]));
    assert_eq!(answer(&mut unit, CEN, &pdu(0x80, 3, None)), (3, 0, timer(9)));
}

#[test]
fn the_seventeenth_session() {
    let mut unit = three_mps();
    let source = |last| [2, 0, 0, 0, 1, last];
    for last in 0..16 {
        assert_eq!(ask_from(&mut unit, CEN, source(last), &activate(60)).1[5], 0);
    }
    let reply = ask(&mut unit, &activate(60)).1;
    assert_eq!((reply[2], reply[5], &reply[12..]), (0, 2, &timer(0)[..]));
    assert_eq!(code(&mut unit, &activate(0)), 6);
    assert_eq!(ask_from(&mut unit, CEN, source(3), &activate(60)).1[5], 4);
    assert_eq!(ask_from(&mut unit, CEN, source(3), &pdu(0x40, 1, Some(1))).1[5], 7);
    assert_eq!(ask_from(&mut unit, CEN, source(3), &pdu(0x80, 2, None)).1[5], 0);
    assert_eq!(code(&mut unit, &activate(60)), 0);
}
