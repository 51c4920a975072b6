//! Fields of records, good and bad.

use random::Random;

/// Numbers that are out of range, unreadable or too large for any type.
const ODD_NUMBERS: [&str; 18] = [
    "0",
    "9",
    "33",
    "4095",
    "4096",
    "257",
    "65537",
    "4294967297",
    "18446744073709551617",
    "99999999999999999999999999",
    "00",
    "01",
    "+1",
    "-1",
    "",
    " 1",
    "1 ",
    "1x",
];

/// A number that is at most this, or an odd one.
pub(crate) fn number(most: usize, random: &mut Random) -> String {
    match random.one_in(6) {
        true => random.pick(&ODD_NUMBERS).to_string(),
        false => (1 + random.below(most)).to_string(),
    }
}

/// One of the words, or one that is not listed.
pub(crate) fn word(words: &[&'static str], random: &mut Random) -> String {
    match random.one_in(10) {
        true => random.pick(&["", "UNI", "nni", "vuni", "d", "e", "cc", "U", "Up", "mep", "\u{0}"]).to_string(),
        false => random.pick(words).to_string(),
    }
}

pub(crate) fn address(random: &mut Random) -> String {
    let low = random.below(10);
    match random.below(14) {
        0 => "000000000000".to_string(),
        1 => format!("{:02x}000000000{low}", random.octet() | 1),
        2 => format!("02000000000{}", random.pick(&["A", "F", "g", "G", " ", "\u{7f}"])),
        3 => format!("0200000000{low}"),
        4 => format!("020000000000{low}"),
        5 => "0180c2000038".to_string(),
        6 => format!("{:012x}", random.number() & 0xFEFF_FFFF_FFFF),
        _ => format!("02000000000{low}"),
    }
}

pub(crate) fn vid(random: &mut Random) -> String {
    match random.below(3) {
        0 => random.pick(&["0", "1", "4094", "4095", "4095", "4096", "020", "65556"]).to_string(),
        1 => number(4095, random),
        _ => random.pick(&["20", "30", "0"]).to_string(),
    }
}

pub(crate) fn level(random: &mut Random) -> String {
    match random.one_in(8) {
        true => number(9, random),
        false => random.below(9).to_string(),
    }
}
