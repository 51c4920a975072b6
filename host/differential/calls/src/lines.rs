//! Lines of a plan, each a record that may be faulty in any way.

use random::Random;

use crate::fields;

pub(crate) fn any(random: &mut Random) -> Vec<u8> {
    let mut fields = match random.below(3) {
        0 => port(random),
        1 => flow(random),
        _ => mp(random),
    };
    spoil(&mut fields, random);
    let mut line = fields.join("\t").into_bytes();
    line.push(b'\n');
    line
}

fn port(random: &mut Random) -> Vec<String> {
    let kind = fields::word(&["uni", "enni"], random);
    vec!["port".to_string(), fields::number(8, random), kind, fields::address(random)]
}

fn flow(random: &mut Random) -> Vec<String> {
    let (number, port) = (fields::number(32, random), fields::number(8, random));
    vec!["flow".to_string(), number, port, fields::word(&["u", "c", "s"], random), fields::vid(random)]
}

fn mp(random: &mut Random) -> Vec<String> {
    let kind = fields::word(&["up", "down", "mip"], random);
    vec!["mp".to_string(), fields::number(32, random), kind, fields::level(random)]
}

/// The line with one field of another record like it.
pub(crate) fn altered(line: &[u8], random: &mut Random) -> Vec<u8> {
    let other = match line.first() {
        Some(b'p') => port(random),
        Some(b'f') => flow(random),
        _ => mp(random),
    };
    let place = 1 + random.below(other.len() - 1);
    let own: Vec<&[u8]> = line.trim_ascii_end().split(|&octet| octet == b'\t').collect();
    let taken =
        own.iter().enumerate().map(|(index, &field)| if index == place { other[place].as_bytes() } else { field });
    let fields: Vec<&[u8]> = taken.collect();
    [&fields.join(&b'\t')[..], b"\n"].concat()
}

/// A line for an MP at some level of some flow.
pub(crate) fn another_mp(random: &mut Random) -> Vec<u8> {
    format!("mp\t{}\tmip\t{}\n", 1 + random.below(12), random.below(8)).into_bytes()
}

/// Sometimes the record has a field too many or too few, or another word first.
fn spoil(fields: &mut Vec<String>, random: &mut Random) {
    let place = random.below(fields.len());
    match random.below(24) {
        0 => fields.insert(place, String::new()),
        1 => drop(fields.remove(place)),
        2 => fields.push(random.pick(&["", "a", "1"]).to_string()),
        3 => fields[0] = random.pick(&["", "ports", "PORT", "shared", "f", "#"]).to_string(),
        4 => fields[place].push(random.pick(&['\r', ' ', '\t', '0', '\u{0}'])),
        5 => fields[place].insert(0, random.pick(&['0', ' ', '+'])),
        6 => fields[place] += &"9".repeat(random.pick(&[1, 20, 200])),
        _ => {}
    }
}
