//! Each refusal, and their order.

use crate::support::*;
use model::{Answer, Unit};

fn refused(number: u8) -> Answer {
    Answer::Refused(number)
}

/// A unit with a notice due.
fn owing() -> Unit {
    let mut unit = bench();
    ask(&mut unit, &activate(60));
    unit.tick(60_000);
    unit
}

#[test]
fn frame_refusals_in_order() {
    let mut unit = owing();
    let image = unit.image();
    for (port, side) in [(2, 0), (0, 0), (257, 0), (1, 2), (1, 256)] {
        assert_eq!(unit.frame(port, side, &[0; 13], 0), (refused(1), Vec::new()));
    }
    assert_eq!(unit.frame(1, 0, &[0; 13], 0).0, refused(2));
    assert_eq!(unit.frame(1, 0, &[0; 2001], 0).0, refused(2));
    assert_eq!(unit.frame(1, 0, &[0; 14], 2007).0, refused(3));
    assert_eq!(unit.frame(1, 0, &[0; 14], 2008).0, refused(4));
    assert_eq!(unit.frame(1, 0, &[1; 2000], 9999).0, refused(4));
    assert_eq!(unit.image(), image);
}

#[test]
fn bounds_of_frame_and_output() {
    let mut unit = bench();
    assert_eq!(unit.frame(1, 0, &[0; 13], ROOM).0, refused(2));
    assert_eq!(unit.frame(1, 0, &[0; 14], ROOM).0, Answer::Forward);
    assert_eq!(unit.frame(1, 0, &[0; 2000], ROOM).0, Answer::Forward);
    assert_eq!(unit.frame(1, 0, &[0; 2001], ROOM).0, refused(2));
    assert_eq!(unit.frame(1, 0, &[0; 14], 2007).0, refused(3));
}

#[test]
fn a_due_notice_comes_before_step_and_flow() {
    let mut unit = owing();
    let image = unit.image();
    for clock in [60_000, 60_001, 2_147_543_648] {
        assert_eq!(unit.tick(clock), refused(4));
    }
    for flow in [1, 2, 3, 257] {
        assert_eq!(unit.allow(flow), refused(4));
        assert_eq!(unit.prohibit(flow), refused(4));
    }
    assert_eq!(unit.image(), image);
    assert_eq!(unit.restart(7), Answer::Done);
    assert_eq!(unit.notice(ROOM).0, refused(7));
}

#[test]
fn flows_not_in_the_plan() {
    let mut unit = bench();
    for flow in [0, 3, 33, 257, u32::MAX] {
        assert_eq!(unit.allow(flow), refused(6));
        assert_eq!(unit.prohibit(flow), refused(6));
    }
}

#[test]
fn taking_a_notice() {
    let mut unit = bench();
    assert_eq!(unit.notice(2007).0, refused(3));
    assert_eq!(unit.notice(2008).0, refused(7));
    let mut unit = owing();
    assert_eq!(unit.notice(2007), (refused(3), Vec::new()));
    assert_eq!(unit.notice(2008).0, Answer::Notice { port: 1, side: 1, length: 31 });
}

#[test]
fn images_that_are_none() {
    let image = owing().image();
    let loaded = Unit::load(&image).expect("a valid state");
    assert_eq!(loaded.image(), image);
    assert_eq!(Unit::load(&image[..4095]).err(), Some(refused(8)));
    assert_eq!(Unit::load(&[0; 4096]).err(), Some(refused(8)));
    assert_eq!(model::make_refusal(4095), Some(refused(8)));
    assert_eq!(model::make_refusal(4096), None);
}
