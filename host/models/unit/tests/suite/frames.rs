//! Random frames, most of them near what a unit with the walks' plan answers.

use crate::pdus;
use random::Random;

pub const PLAN: &[u8] = b"port\t1\tuni\t020000000001
port\t2\tuni\t020000000002
port\t3\tenni\t020000000003
flow\t1\t1\tc\t20
flow\t2\t1\tc\t30
flow\t3\t1\tu\t0
flow\t4\t2\tc\t20
flow\t5\t3\ts\t20
flow\t6\t3\tu\t0
mp\t1\tup\t4
mp\t1\tmip\t2
mp\t1\tdown\t6
mp\t2\tup\t4
mp\t3\tmip\t4
mp\t4\tmip\t4
mp\t5\tmip\t3
mp\t5\tdown\t4
mp\t6\tup\t4
";

pub fn address(last: u8) -> [u8; 6] {
    [2, 0, 0, 0, 0, last]
}

fn source(rng: &mut Random) -> [u8; 6] {
    match rng.below(24) {
        0 => [0; 6],
        1 => [3, 0, 0, 0, 0, 0xAA],
        2..=4 => [6, 0, 0, 0, 0, 0xAA],
        5..=7 => address(0x10 + rng.octet() % 20),
        8 => address(1),
        9..=12 => address(0xAB),
        _ => address(0xAA),
    }
}

fn destination(rng: &mut Random, port: u8, level: u8) -> [u8; 6] {
    match rng.below(16) {
        0 => address(1 + rng.octet() % 3),
        1 => [1, 0x80, 0xC2, 0, 0, 0x38 + rng.octet() % 8],
        2..=4 => [1, 0x80, 0xC2, 0, 0, 0x38 + level],
        5 => [0xFF; 6],
        6 => [1, 0, 0x5E, 0, 0, 1],
        7 => address(0xBB),
        _ => address(port),
    }
}

fn tag(rng: &mut Random, port: u8) -> Vec<u8> {
    let own: [u8; 2] = if port == 3 { [0x88, 0xA8] } else { [0x81, 0] };
    let high = rng.pick(&[0, 0, 0x20, 0xF0]);
    match rng.below(20) {
        0 => [rng.pick(&[[0x88, 0xA8], [0x81, 0]]), [high, 20]].concat(),
        1 => [own, [high, 0]].concat(),
        2 => [own, [high | 0xF, 0xFF]].concat(),
        3 => [own, [high, 99]].concat(),
        4..=6 => Vec::new(),
        7..=9 => [own, [high, 30]].concat(),
        10 => [own, [high, 20], rng.pick(&[[0x88, 0xA8], [0x81, 0]]), [0, 20]].concat(),
        _ => [own, [high, 20]].concat(),
    }
}

pub fn random(rng: &mut Random, port: u8) -> Vec<u8> {
    let level = rng.pick(&[4, 4, 4, 4, 4, 4, 2, 2, 2, 3, 3, 5, 6, 6, 6, 0, 7]);
    let (to, from, tag) = (destination(rng, port, level), source(rng), tag(rng, port));
    let mut frame = [&to[..], &from, &tag].concat();
    if rng.one_in(6) {
        frame.extend([8, 0, 1, 2, 3]);
    } else {
        frame.extend([0x89, 2]);
        let before = frame.len();
        frame.extend(pdus::random(rng, to, level, before));
    }
    match rng.below(40) {
        0 => frame.truncate(rng.pick(&[13, 14, 16, 17, 18])),
        1 => frame.resize(rng.pick(&[1999, 2000, 2001]), 0),
        _ => {}
    }
    frame
}
