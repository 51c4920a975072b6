//! TLVs, good and bad.

use random::Random;

pub(crate) fn timer(seconds: u32) -> Vec<u8> {
    [&[37, 0, 5, 1], &seconds.to_be_bytes()[..]].concat()
}

/// One that is copied: of another type, or of type 37 with another subtype.
pub(crate) fn unknown(random: &mut Random) -> Vec<u8> {
    let length = random.pick(&[0, 1, 1, 4, 5, 5, 40, 300]);
    let mut value: Vec<u8> = (0..length).map(|_| random.octet()).collect();
    let kind = match random.below(4) {
        0 => 31,
        1 => {
            value.insert(0, random.pick(&[0, 2, 2, 255]));
            37
        }
        _ => random.pick(&[1, 9, 36, 38, 255]),
    };
    of(kind, &value)
}

pub(crate) fn of(kind: u8, value: &[u8]) -> Vec<u8> {
    [&[kind], &(value.len() as u16).to_be_bytes()[..], value].concat()
}

/// One that makes its list bad, or would if it were read otherwise.
pub(crate) fn bad(random: &mut Random) -> Vec<u8> {
    match random.below(10) {
        0 => of(37, &[]),
        1 => of(37, &[1, 0, 0, 0, 60, 0]),
        2 => of(37, &[1, 0, 0, 60]),
        3 => of(37, &[1]),
        4 | 5 => timer(random.pick(&[1, 60, 0])),
        6 => vec![9],
        7 => vec![9, 0],
        8 => vec![random.pick(&[9, 37]), 1, 0, 1],
        _ => vec![9, 0xFF, 0xFF, random.octet()],
    }
}
