//! What a host's programmer reads has the words of the field, and none of those of the definitions that
//! docs/GLOSSARY.md replaces for it.

use crate::tree::Tree;

/// The word of the definitions, and that of the field.
const REPLACED: [(&str, &str); 25] = [
    ("turned round", "looped back"),
    ("turn round", "loop back"),
    ("turns round", "loops back"),
    ("turning round", "looping back"),
    ("lent", "the caller's buffer"),
    ("lend", "pass"),
    ("lends", "passes"),
    ("lending", "passing"),
    ("owed", "pending"),
    ("owe", "has pending"),
    ("owes", "has pending"),
    ("owing", "pending"),
    ("the reading", "the timestamp"),
    ("readings", "timestamps"),
    ("clock reading", "timestamp"),
    ("reading of the clock", "timestamp"),
    ("last reading", "last timestamp"),
    ("new reading", "new timestamp"),
    ("next reading", "next timestamp"),
    ("first reading", "first timestamp"),
    ("accepted reading", "accepted timestamp"),
    ("the reading is", "the timestamp is"),
    ("a reading", "a timestamp"),
    ("wrong program", "mutant"),
    ("wrong programs", "mutants"),
];
const FOR_HOSTS: [&str; 7] =
    ["README.md", "docs/HOST.md", "docs/MEF46.md", "docs/SHIFT.md", "docs/BENCH.md", "include/", "packaging/man/"];

pub fn check(tree: &Tree) -> Vec<String> {
    let of_hosts = FOR_HOSTS.iter().flat_map(|front| tree.below(front));
    of_hosts.flat_map(|(file, text)| of_file(file, text)).collect()
}

fn of_file(file: &str, text: &str) -> Vec<String> {
    let words = words(text, "_");
    // README.md says what the command tries
    let allowed = |old: &str| file == "README.md" && old.starts_with("wrong program");
    let mut findings = Vec::new();
    for (old, new) in REPLACED.iter().filter(|(old, _)| !allowed(old)) {
        let wanted: Vec<&str> = old.split(' ').collect();
        for run in words.windows(wanted.len()) {
            if run.iter().zip(&wanted).all(|((_, word), wanted)| word.eq_ignore_ascii_case(wanted)) {
                findings.push(format!("{file}:{}: \"{old}\": the field has \"{new}\"", run[0].0));
            }
        }
    }
    findings
}

/// The words of a text, with their lines: letters, digits and what may join them.
pub fn words<'a>(text: &'a str, joins: &str) -> Vec<(usize, &'a str)> {
    let mut words = Vec::new();
    for (at, line) in text.lines().enumerate() {
        let parts = line.split(|c: char| !c.is_alphanumeric() && !joins.contains(c)).filter(|word| !word.is_empty());
        words.extend(parts.map(|word| (at + 1, word)));
    }
    words
}
