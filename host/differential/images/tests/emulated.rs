//! Looks by the library for x86-64, on the emulator of a machine that links another.

#![cfg(not(target_arch = "x86_64"))]

use image::State;
use images::compare::{emulated_answer, tell};
use images::damage::damaged;
use images::query::Query;
use images::random::Random;
use images::states::random_state;

const STATES: usize = 25_000;

#[test]
fn looks() {
    let mut random = Random::for_test("emulated", 9);
    let (mut open, mut refused) = (0, 0);
    for _ in 0..STATES {
        let state = random_state(&mut random);
        let query = Query::random(&state, &mut random);
        open += usize::from(emulated_answer(&state.image(), Some(&state), &query) >> 24 & 1 != 0);
        let octets = damaged(&state, &mut random);
        refused += usize::from(emulated_answer(&octets, State::read(&octets).as_ref(), &query) == 0);
    }
    tell(&format!("emulated: {} looks, {open} at an open session; {refused} images refused", 2 * STATES));
    assert!(open > STATES / 10 && refused > STATES / 10, "looks should both find and miss");
}
