//! Every single bit of some images flipped, one at a time.

use image::{State, IMAGE_LENGTH};
use images::compare::{is_taken, tell};
use images::query::Query;
use images::random::Random;
use images::samples;

#[test]
fn flips() {
    let mut random = Random::for_test("flips", 1);
    for (name, state) in samples::all() {
        let taken = taken_flips(&state, &mut random);
        tell(&format!("flips: {name}: {taken} taken, {} refused", 8 * IMAGE_LENGTH - taken));
    }
}

/// Of one port alone: 32 bits of the clock, 47 of the address, and numbers 3 and 5.
#[test]
fn empty_unit_counted_by_hand() {
    let mut random = Random::for_test("flips of the empty unit", 1);
    assert_eq!(taken_flips(&samples::empty(), &mut random), 32 + 47 + 2);
}

/// Of the bench: 32 bits of the clock, flow 2 allowed, 47 of the port's address; flow 1's MP a MIP, up or down MPs at
/// its 7 other levels; 11 other VIDs of flow 2 that are no more than 4094 and above 20, and up or down MPs at its 8
/// levels; 47 bits of the session's source, 27 of its time and 4 of its tag.
#[test]
fn bench_counted_by_hand() {
    let mut random = Random::for_test("flips of the bench", 1);
    assert_eq!(taken_flips(&samples::bench(), &mut random), 32 + 1 + 47 + (1 + 14) + (11 + 16) + (47 + 27 + 4));
}

fn taken_flips(state: &State, random: &mut Random) -> usize {
    let mut octets = state.image();
    assert!(is_taken(&octets, &Query::random(state, random)));
    let mut taken = 0;
    for bit in 0..8 * IMAGE_LENGTH {
        octets[bit / 8] ^= 1 << (bit % 8);
        taken += usize::from(is_taken(&octets, &Query::random(state, random)));
        octets[bit / 8] ^= 1 << (bit % 8);
    }
    taken
}
