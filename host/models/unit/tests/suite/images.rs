//! The example image of the layout.

use crate::support::*;
use model::{Answer, Unit};

#[test]
fn the_example_of_the_layout() {
    let mut unit = bench();
    ask(&mut unit, &activate(60));
    let mut expected = [0; 4096];
    let mut put = |start: usize, octets: &[u8]| {
        expected[start..start + octets.len()].copy_from_slice(octets);
    };
    put(32, &[1]);
    put(64, &[1, 2]);
    put(128, &[1, 0, 0, 0, 0, 2, 1, 1]);
    put(256, &[0, 1, 0, 0, 0x14, 0, 2, 1, 0, 0, 0, 0, 1, 0, 0, 0]);
    put(288, &[0, 2, 0, 0, 0x1E, 0, 2, 1]);
    put(1536, &[0xAA, 0, 0, 0, 0, 2, 1, 0, 0x60, 0xEA, 0, 0, 0, 4, 1, 4, 0x14, 0, 0, 0x81]);
    assert_eq!(unit.image(), expected);
}

/// A code 8 and a code 9 notice together: valid, though no sequence of calls leads there.
#[test]
fn notices_of_both_codes_leave_by_flow() {
    let mut unit = bench_with(b"mp\t2\tup\t4\n");
    unit.prohibit(2);
    ask(&mut unit, &activate(1));
    unit.tick(1000);
    let mut state = image::State::read(&unit.image()).expect("a valid state");
    let tag = Some(0x8100_001E);
    let other = image::Session { flow: 2, notice: Some(9), tag, ..state.sessions[0] };
    state.sessions.push(other);
    let mut unit = Unit::load(&state.image()).expect("a valid state");
    assert_eq!(unit.allow(1), Answer::Refused(4));
    assert_eq!(unit.notice(ROOM).1[23], 8);
    assert_eq!(unit.notice(ROOM).1[23], 9);
    assert_eq!(unit.notice(ROOM).0, Answer::Refused(7));
}
