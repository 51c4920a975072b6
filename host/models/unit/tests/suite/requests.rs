//! Random requests that an MP of the walks' plan serves, so that sessions come about and are met.

use random::Random;

/// A port, the tag of one of its sets, and the level and a side of an MP of that flow.
type Place = (u8, &'static [u8], u8, u32);

const PLACES: [Place; 14] = [
    (1, &[0x81, 0, 0, 20], 4, 1),
    (1, &[0x81, 0, 0, 20], 4, 1),
    (1, &[0x81, 0, 0x20, 20], 4, 1),
    (1, &[0x81, 0, 0, 20], 2, 1),
    (1, &[0x81, 0, 0, 20], 2, 0),
    (1, &[0x81, 0, 0, 20], 6, 0),
    (1, &[0x81, 0, 0, 30], 4, 1),
    (1, &[], 4, 0),
    (1, &[], 4, 1),
    (2, &[0x81, 0, 0, 20], 4, 0),
    (2, &[0x81, 0, 0xF0, 20], 4, 1),
    (3, &[0x88, 0xA8, 0, 20], 3, 1),
    (3, &[0x88, 0xA8, 0, 20], 4, 0),
    (3, &[], 4, 1),
];

/// A port, a side and a frame. In a crowd many testers open long sessions.
pub fn random(rng: &mut Random, in_crowd: bool) -> (u32, u32, Vec<u8>) {
    let (port, tag, level, side) = rng.pick(&PLACES);
    let last = match in_crowd {
        true => 0x10 + rng.octet() % 20,
        false => rng.pick(&[0xAA, 0xAA, 0xAA, 0xAB]),
    };
    let address = [2, 0, 0, 0, 0, port];
    let mut frame = [&address[..], &[2, 0, 0, 0, 0, last], tag, &[0x89, 2]].concat();
    let message_type = rng.pick(&[1, 1, 1, 1, 1, 2, 3, 3]);
    frame.extend([level << 5, 57, 0, 8, message_type, 0]);
    frame.extend(address);
    if message_type == 1 || rng.one_in(4) {
        let usual = if in_crowd { 86_400 } else { rng.pick(&[1, 2, 60]) };
        let seconds = if rng.one_in(5) { rng.pick(&[0, 86_401]) } else { usual };
        frame.extend([37, 0, 5, 1]);
        frame.extend(u32::to_be_bytes(seconds));
    }
    frame.push(0);
    (u32::from(port), side, frame)
}
