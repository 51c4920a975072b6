//! Lines that can't be read for one of their numbers or for their hex.

use random::Random;

use crate::bad::{Kind, Of};

/// The least number that is too large.
const TOO_LARGE: u64 = 1 << 32;

pub(crate) const NUMBERS: [Kind; 12] = [
    ("number just too large", Of::Number, |fields, random| {
        with_number(fields, random, |number, _| (TOO_LARGE + value(number)).to_string())
    }),
    ("number over 64 bits", Of::Number, |fields, random| {
        with_number(fields, random, |number, _| ((1_u128 << 64) + u128::from(value(number))).to_string())
    }),
    ("number of many digits", Of::Number, |fields, random| {
        with_number(fields, random, |_, random| {
            random.pick(&["9", "1", "4294967295"]).repeat(1 + random.pick(&[10, 20, 300]))
        })
    }),
    ("leading zero", Of::Number, |fields, random| {
        with_number(fields, random, |number, random| random.pick(&["0", "0", "00", "0000000000"]).to_string() + number)
    }),
    ("plus sign", Of::Number, |fields, random| with_number(fields, random, |number, _| format!("+{number}"))),
    ("minus sign", Of::Number, |fields, random| with_number(fields, random, |number, _| format!("-{number}"))),
    ("blank before a number", Of::Number, |fields, random| {
        with_number(fields, random, |number, _| format!(" {number}"))
    }),
    ("blank behind a number", Of::Number, |fields, random| {
        with_number(fields, random, |number, _| format!("{number} "))
    }),
    ("empty number", Of::Number, |fields, random| with_number(fields, random, |_, _| String::new())),
    ("number in hex", Of::Number, |fields, random| {
        with_number(fields, random, |number, _| format!("0x{:x}", value(number)))
    }),
    ("letter behind a number", Of::Number, |fields, random| {
        with_number(fields, random, |number, random| number.to_string() + random.pick(&["x", "a", "/", ":", ".0", ","]))
    }),
    ("letters for a number", Of::Number, |fields, random| {
        with_number(fields, random, |_, random| random.pick(&["-", "a", "one", "/", ":", "٣"]).to_string())
    }),
];

pub(crate) const HEX: [Kind; 11] = [
    ("hex in upper case", Of::Frame, |fields, _| {
        with_hex(fields, |hex| match hex.rfind(|digit: char| digit.is_ascii_lowercase()) {
            Some(place) => hex[..place].to_string() + &hex[place..].to_uppercase(),
            None => hex.replace('-', "") + "0A",
        })
    }),
    ("hex all in upper case", Of::Frame, |fields, _| with_hex(fields, |hex| hex.to_uppercase() + "AA")),
    ("digit too many in front", Of::Frame, |fields, _| with_hex(fields, |hex| "0".to_string() + &hex.replace('-', ""))),
    ("digit too many behind", Of::Frame, |fields, _| with_hex(fields, |hex| hex.replace('-', "") + "0")),
    ("digit alone", Of::Frame, |fields, random| {
        let digit = random.pick(&["0", "a", "f", "9"]);
        with_hex(fields, |_| digit.to_string())
    }),
    ("empty hex", Of::Frame, |fields, _| with_hex(fields, |_| String::new())),
    ("no hex digit", Of::Frame, |fields, random| {
        let (other, place) = (random.pick(&["g", "/", ":", "`", "@", "G", " ", "-", "\u{7f}"]), random.below(4_000));
        with_hex(fields, |hex| {
            let place = place % hex.len();
            hex[..place].to_string() + other + "0" + &hex[place..]
        })
    }),
    ("0x before hex", Of::Frame, |fields, _| with_hex(fields, |hex| "0x".to_string() + &hex.replace('-', ""))),
    ("parted hex", Of::Frame, |fields, random| {
        let parting = random.pick(&["-", ":", " "]);
        with_hex(fields, |hex| format!("{}{parting}0a", if hex.len() > 1 { &hex[..hex.len() - 2] } else { "02" }))
    }),
    ("dash too many", Of::Frame, |fields, random| {
        let dashes = random.pick(&["--", "-0a", "0a-", " -", "- ", "---"]);
        with_hex(fields, |_| dashes.to_string())
    }),
    ("other behind hex", Of::Frame, |fields, random| {
        let other = random.pick(&["zz", "\0\0", "  ", "\r", "#"]);
        with_hex(fields, |hex| hex.to_string() + other)
    }),
];

fn value(number: &str) -> u64 {
    number.parse().expect("a number of an event")
}

/// One of the line's numbers is another.
fn with_number(mut fields: Vec<String>, random: &mut Random, other: fn(&str, &mut Random) -> String) -> Vec<u8> {
    let numbers = if fields.len() > 2 { 2 } else { 1 };
    let place = 1 + random.below(numbers);
    fields[place] = other(&fields[place], random);
    fields.join("\t").into_bytes()
}

/// The frame's octets are others.
fn with_hex(mut fields: Vec<String>, other: impl Fn(&str) -> String) -> Vec<u8> {
    fields[3] = other(&fields[3]);
    fields.join("\t").into_bytes()
}
