//! From states to images and back.

use image::{State, IMAGE_LENGTH};
use images::compare::{is_taken, tell};
use images::query::Query;
use images::random::Random;
use images::samples;
use images::states::random_state;

const STATES: usize = 100_000;

#[test]
fn round() {
    let mut random = Random::for_test("round", 3);
    for _ in 0..STATES {
        let state = random_state(&mut random);
        assert!(state.is_valid());
        let image = state.image();
        assert_eq!(State::read(&image), Some(state.ordered()));
        assert!(is_taken(&image, &Query::random(&state, &mut random)));
    }
    tell(&format!("round: {STATES} states"));
}

#[test]
fn order_of_rows_is_no_part_of_the_state() {
    let mut random = Random::for_test("order", 4);
    for (_, mut state) in samples::all() {
        let image = state.image();
        random.shuffle(&mut state.ports);
        random.shuffle(&mut state.flows);
        random.shuffle(&mut state.sessions);
        assert_eq!(state.image(), image);
    }
}

#[test]
fn where_the_octets_lie_does_not_matter() {
    let mut random = Random::for_test("where", 8);
    for (_, state) in samples::all() {
        for start in 0..16 {
            let mut memory = [0xFF; IMAGE_LENGTH + 16];
            let image = &mut memory[start..start + IMAGE_LENGTH];
            image.copy_from_slice(&state.image());
            assert!(is_taken(image, &Query::random(&state, &mut random)));
        }
    }
}

/// The octets of the layout's example.
#[test]
fn example() {
    let parts: [(usize, &[u8]); 7] = [
        (32, &[0x01]),
        (64, &[0x01, 0x02]),
        (128, &[0x01, 0x00, 0x00, 0x00, 0x00, 0x02, 0x01, 0x01]),
        (256, &[0x00, 0x01, 0x00, 0x00, 0x14, 0x00, 0x02, 0x01, 0x00, 0x00, 0x00, 0x00, 0x01]),
        (288, &[0x00, 0x02, 0x00, 0x00, 0x1E, 0x00, 0x02, 0x01]),
        (1536, &[0xAA, 0x00, 0x00, 0x00, 0x00, 0x02, 0x01, 0x00, 0x60, 0xEA, 0x00, 0x00, 0x00, 0x04, 0x01, 0x04]),
        (1552, &[0x14, 0x00, 0x00, 0x81]),
    ];
    let mut octets = [0; IMAGE_LENGTH];
    for (start, part) in parts {
        octets[start..start + part.len()].copy_from_slice(part);
    }
    assert_eq!(samples::bench().image(), octets);
}
