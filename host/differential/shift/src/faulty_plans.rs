//! Plans that do not keep the rules.

use random::Random;

use crate::good_plans;
use crate::tag::Name;

const MOST_TEXT: usize = 8_192;

/// Makes a faulty text of a good one.
type Spoil = fn(String, &mut Random) -> Vec<u8>;

pub(crate) const KINDS: [(Name, Spoil); 11] = [
    ("plan without its last LF", |text, _| text.trim_end().into()),
    ("plan with carriage returns", |text, _| text.replace('\n', "\r\n").into()),
    ("plan with an unreadable line", |text, random| {
        let line =
            random.pick(&["\n", "\t\n", "ports\t1\n", "port\t01\tuni\t020000000001\n", "shared\t020000000001\n"]);
        with_line(&text, line, random)
    }),
    ("plan with a number out of range", |text, random| {
        let line = random.pick(&[
            "port\t9\tuni\t0200000000f1\n",
            "flow\t33\t1\tu\t0\n",
            "port\t4294967297\tuni\t020000000001\n",
        ]);
        with_line(&text, line, random)
    }),
    ("plan with an unnamed port", |text, random| {
        let line = random.pick(&["flow\t32\t8\tu\t0\n", "mp\t32\tup\t1\n"]);
        (line.to_string() + &text).into()
    }),
    ("plan with a repeat", |text, _| {
        let first = text.lines().next().unwrap_or_default().to_string();
        (text + &first + "\n").into()
    }),
    ("plan with an MP too many", |_, _| (good_plans::full() + "mp\t1\tup\t7\n").into()),
    ("plan of no octets", |_, _| Vec::new()),
    ("plan of 8,192 octets", |text, random| filled(text, MOST_TEXT, random)),
    ("plan of 8,193 octets", |text, random| filled(text, MOST_TEXT + 1, random)),
    ("plan of far too many octets", |text, random| {
        let octets = random.pick(&[2 * MOST_TEXT, 65_536, 65_537, 70_000, 300_000]);
        filled(text, octets, random)
    }),
];

/// The text with that line somewhere behind its first.
fn with_line(text: &str, line: &str, random: &mut Random) -> Vec<u8> {
    let mut lines: Vec<&str> = text.split_inclusive('\n').collect();
    lines.insert(1 + random.below(lines.len()), line);
    lines.concat().into()
}

/// A text of that many octets: one line too many, which is long or empty.
fn filled(text: String, octets: usize, random: &mut Random) -> Vec<u8> {
    let mut text = text.into_bytes();
    text.extend(random.pick(&[&b"flow\t1\t1\tc\t"[..], b"port\t", b""]));
    text.resize(octets - 1, random.pick(b"19\n\xFF"));
    text.push(b'\n');
    text
}
