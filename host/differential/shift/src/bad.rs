//! Lines that can't be read, each made of one that can: the line as a whole, its tabs and its word.

use random::Random;

use crate::bad_fields;
use crate::tag::Name;

/// Makes a line bad that has these fields.
pub(crate) type Spoil = fn(Vec<String>, &mut Random) -> Vec<u8>;

/// What a line must be so that it can be spoiled in some way.
#[derive(Clone, Copy, PartialEq, Eq)]
pub(crate) enum Of {
    Any,
    /// One that has a number.
    Number,
    Frame,
}

pub(crate) type Kind = (Name, Of, Spoil);

const LINES: [Kind; 24] = [
    ("empty line", Of::Any, |_, _| Vec::new()),
    ("carriage return behind a line", Of::Any, |fields, _| around("", fields, "\r")),
    ("carriage return alone", Of::Any, |_, _| b"\r".to_vec()),
    ("carriage return within a line", Of::Number, |fields, _| fields.join("\r\t").into_bytes()),
    ("carriage return between two lines", Of::Any, |fields, _| around("notice\r", fields, "")),
    ("blank before a line", Of::Any, |fields, _| around(" ", fields, "")),
    ("blank behind a line", Of::Any, |fields, _| around("", fields, " ")),
    ("blanks alone", Of::Any, |_, random| vec![b' '; 1 + random.below(3)]),
    ("blanks for tabs", Of::Number, |fields, _| fields.join(" ").into_bytes()),
    ("tab before a line", Of::Any, |fields, _| around("\t", fields, "")),
    ("tab behind a line", Of::Any, |fields, _| around("", fields, "\t")),
    ("tab twice", Of::Number, |fields, _| fields.join("\t\t").into_bytes()),
    ("tab alone", Of::Any, |_, _| b"\t".to_vec()),
    ("field too many", Of::Any, |fields, random| around("", fields, random.pick(&["\t0", "\t-", "\t00", "\tx"]))),
    ("field too few", Of::Number, |mut fields, _| {
        fields.pop();
        fields.join("\t").into_bytes()
    }),
    ("word alone", Of::Number, |fields, _| fields[0].clone().into_bytes()),
    ("word in upper case", Of::Any, |fields, random| {
        let upper = fields[0].to_uppercase();
        let mixed = upper[..1].to_string() + &fields[0][1..];
        with_word(fields, random.pick(&[&upper, &mixed]))
    }),
    ("word too long", Of::Any, |fields, random| {
        let longer = fields[0].clone() + random.pick(&["s", "e", "\u{b}", "_"]);
        with_word(fields, &longer)
    }),
    ("word cut short", Of::Any, |fields, random| {
        let shorter = fields[0][..1 + random.below(fields[0].len() - 1)].to_string();
        with_word(fields, &shorter)
    }),
    ("word not listed", Of::Any, |fields, random| {
        with_word(fields, random.pick(&["make", "plan", "got", "bad", "shared", "#", "-", "1", "count", "refused"]))
    }),
    ("no word", Of::Number, |fields, _| with_word(fields, "")),
    ("NUL in a line", Of::Any, |fields, random| {
        let mut line = around("", fields, "");
        line.insert(random.below(line.len()), 0);
        line
    }),
    ("NUL behind a line", Of::Any, |fields, random| around("", fields, random.pick(&["\0", "\0\0\0", "\0x"]))),
    ("octet over 127", Of::Any, |fields, random| {
        let mut line = around("", fields, "");
        let place = random.below(line.len());
        line[place] |= 0x80;
        line
    }),
];

/// Every kind of bad line, but for those that are too long.
pub(crate) fn kinds() -> Vec<Kind> {
    [&LINES[..], &bad_fields::NUMBERS, &bad_fields::HEX, &[RANDOM]].concat()
}

/// The first octet is that of no word.
const RANDOM: Kind = ("random octets", Of::Any, |_, random| {
    let octets = (0..random.below(40)).map(|_| random.octet()).filter(|&octet| octet != b'\n');
    [vec![0xFF], octets.collect()].concat()
});

fn around(before: &str, fields: Vec<String>, behind: &str) -> Vec<u8> {
    format!("{before}{}{behind}", fields.join("\t")).into_bytes()
}

fn with_word(mut fields: Vec<String>, word: &str) -> Vec<u8> {
    fields[0] = word.to_string();
    around("", fields, "")
}
