//! Damage to images.

use std::ops::Range;

use image::{State, Table, FLOWS, IMAGE_LENGTH, PLACES, PORTS, SESSIONS, TAIL};

use crate::alter::altered;
use crate::random::Random;

/// Octets unlike the state's image: the image of an altered state, or the image with octets changed, or both.
pub fn damaged(state: &State, random: &mut Random) -> Vec<u8> {
    let image = state.image();
    loop {
        let mut octets = match random.one_in(2) {
            true => altered(state, random).image().to_vec(),
            false => image.to_vec(),
        };
        if octets == image || random.one_in(8) {
            damage(&mut octets, random);
        }
        if octets != image {
            return octets;
        }
    }
}

fn damage(octets: &mut Vec<u8>, random: &mut Random) {
    let table = random.pick(&[PORTS, FLOWS, SESSIONS]);
    let row = used_row(octets, table, random);
    match random.below(12) {
        0 => change_octets(octets, 0..IMAGE_LENGTH, random),
        1 => change_octets(octets, 0..TAIL.start, random),
        2 => change_octets(octets, row, random),
        3 => flip_used_bit(octets, random),
        4 => change_octets(octets, PLACES, random),
        5 => swap_places(octets, random),
        6 => swap_rows(octets, table, random),
        7 => repeat_row(octets, table, random),
        8 => shift_rows(&mut octets[row.start..table.span().end], table.width, random),
        9 => octets[row].fill(0),
        10 => octets[TAIL].fill_with(|| random.octet()),
        _ => change_length(octets, random),
    }
}

/// Sets one to four octets of that part.
fn change_octets(octets: &mut [u8], part: Range<usize>, random: &mut Random) {
    for _ in 0..1 + random.below(4) {
        let index = part.start + random.below(part.len());
        let any = random.octet();
        octets[index] = random.pick(&[0, 1, 2, 3, 4, 8, 9, 32, 33, 255, any]);
    }
}

/// Flips a bit of an octet that is not 0.
fn flip_used_bit(octets: &mut [u8], random: &mut Random) {
    let mut used: Vec<&mut u8> = octets.iter_mut().filter(|octet| **octet != 0).collect();
    if let Some(octet) = random.pick_mut(&mut used) {
        **octet ^= 1 << random.below(8);
    }
}

fn swap_places(octets: &mut [u8], random: &mut Random) {
    let any_place = |random: &mut Random| PLACES.start + random.below(PLACES.len());
    octets.swap(any_place(random), any_place(random));
}

/// How many rows of the table are not all 0.
fn used_rows(octets: &[u8], table: Table) -> usize {
    octets[table.span()].chunks(table.width).filter(|row| row.iter().any(|&octet| octet != 0)).count()
}

/// One of the rows used, or the first.
fn used_row(octets: &[u8], table: Table, random: &mut Random) -> Range<usize> {
    table.row(random.below(used_rows(octets, table).max(1)))
}

/// Swaps two rows among those used and the one behind them.
fn swap_rows(octets: &mut [u8], table: Table, random: &mut Random) {
    let choice = table.rows.min(used_rows(octets, table) + 1);
    let (one, other) = (random.below(choice), random.below(choice));
    let row = octets[table.row(one)].to_vec();
    octets.copy_within(table.row(other), table.row(one).start);
    octets[table.row(other)].copy_from_slice(&row);
}

/// Puts a row into the next place too, over the row there or ahead of it.
fn repeat_row(octets: &mut [u8], table: Table, random: &mut Random) {
    let place = random.below(used_rows(octets, table).clamp(1, table.rows - 1));
    let start = table.row(place).start;
    let end = match random.one_in(2) {
        true => table.row(place + 1).start,
        false => table.row(table.rows - 1).start,
    };
    octets.copy_within(start..end, start + table.width);
}

/// Moves rows of that width by one place, up or down.
fn shift_rows(rows: &mut [u8], width: usize, random: &mut Random) {
    match random.one_in(2) {
        true => rows.rotate_left(width),
        false => rows.rotate_right(width),
    }
}

fn change_length(octets: &mut Vec<u8>, random: &mut Random) {
    let length = match random.below(3) {
        0 => random.below(IMAGE_LENGTH),
        1 => random.pick(&[0, IMAGE_LENGTH - 1, IMAGE_LENGTH + 1, 2 * IMAGE_LENGTH]),
        _ => IMAGE_LENGTH + 1 + random.below(64),
    };
    octets.resize(length, random.pick(&[0, 255]));
}
