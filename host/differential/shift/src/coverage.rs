//! How often the logs came upon what they should come upon.

use std::collections::BTreeMap;

use crate::handing::{BY_OCTETS, WAYS};
use crate::log::{BARE, OPEN_END};
use crate::tag::Tag;
use crate::{bad, faulty_plans, good_plans, host, long, names, Log};

/// Each outcome that a word can print, with the refusals by their numbers.
const OUTCOMES: [(&str, &[&str]); 7] = [
    ("frame", &["forward", "drop", "loop", "reply", "replyforward", "refused 1", "refused 2", "refused 4"]),
    ("tick", &["done", "refused 4", "refused 5"]),
    ("allow", &["done", "refused 4", "refused 6"]),
    ("prohibit", &["done", "refused 4", "refused 6"]),
    ("notice", &["reply", "refused 7"]),
    ("restart", &["done"]),
    ("bad", &["refused 9"]),
];
const REASONS: [u8; 7] = [1, 2, 3, 4, 5, 6, 7];
/// Counts of octets that are as large as can be.
const LONGEST: [(&str, &str); 2] = [("loop", "2000"), ("reply", "2008")];

#[derive(Default)]
pub struct Coverage {
    pub logs: usize,
    pub lines: usize,
    counts: BTreeMap<String, usize>,
}

impl Coverage {
    /// Takes note of a log and what was printed for it.
    pub(crate) fn add(&mut self, log: &Log, printed: &[u8]) {
        self.logs += 1;
        let lines: Vec<Vec<&str>> = places(printed);
        lines.iter().for_each(|places| self.add_line(places));
        for tag in &log.tags {
            let is_so = |number: usize, is_bad| {
                lines.get(number - 1).is_some_and(|places| places.len() == 5 && (places[1] == "bad") == is_bad)
            };
            match *tag {
                Tag::Log(name) => self.count(name),
                Tag::Bad(number, name) if is_so(number, true) => self.count(name),
                Tag::Read(number, name) if is_so(number, false) => self.count(name),
                _ => {}
            }
        }
    }

    fn add_line(&mut self, places: &[&str]) {
        self.lines += 1;
        match places {
            ["plan", _, reason] => self.count(&reason_name(reason)),
            [_, word, "refused", number, "-"] => self.count(&format!("{word} refused {number}")),
            [_, word, outcome, octets, _] => {
                self.count(&format!("{word} {outcome}"));
                if LONGEST.contains(&(outcome, octets)) {
                    self.count(&longest_name(outcome, octets));
                }
            }
            _ => self.count("a line that is none"),
        }
    }

    fn count(&mut self, name: &str) {
        *self.counts.entry(name.to_string()).or_default() += 1;
    }

    pub fn add_all(&mut self, other: Coverage) {
        self.logs += other.logs;
        self.lines += other.lines;
        for (name, count) in other.counts {
            *self.counts.entry(name).or_default() += count;
        }
    }

    /// Everything that logs should come upon, with how often they did.
    pub fn table(&self) -> Vec<(String, usize)> {
        let count = |name: String| (name.clone(), self.counts.get(&name).copied().unwrap_or(0));
        expected().into_iter().map(count).collect()
    }

    /// What they did not come upon.
    pub fn missing(&self) -> Vec<String> {
        self.table().into_iter().filter(|(_, count)| *count == 0).map(|(name, _)| name).collect()
    }

    /// What they came upon though it can't be.
    pub fn impossible(&self) -> Vec<&String> {
        let expected = expected();
        self.counts.keys().filter(|name| !expected.contains(name)).collect()
    }
}

fn places(printed: &[u8]) -> Vec<Vec<&str>> {
    let text = std::str::from_utf8(printed).expect("what is printed is text");
    text.lines().map(|line| line.split('\t').collect()).collect()
}

fn reason_name(reason: &str) -> String {
    format!("plan fault, reason {reason}")
}

fn longest_name(outcome: &str, octets: &str) -> String {
    format!("{outcome} of {octets} octets")
}

fn expected() -> Vec<String> {
    let of_word =
        |(word, all): (&str, &[&str])| all.iter().map(|outcome| format!("{word} {outcome}")).collect::<Vec<_>>();
    let mut names: Vec<String> = OUTCOMES.into_iter().flat_map(of_word).collect();
    names.extend(LONGEST.map(|(outcome, octets)| longest_name(outcome, octets)));
    names.extend(REASONS.map(|reason| reason_name(&reason.to_string())));
    let tags = [good_plans::KINDS.map(|kind| kind.0).to_vec(), faulty_plans::KINDS.map(|kind| kind.0).to_vec()];
    names.extend(tags.concat().iter().map(|name| name.to_string()));
    names.extend(names::OPENED.iter().map(|kind| kind.0.to_string()));
    names.extend(names::UNOPENED.iter().map(|kind| kind.0.to_string()));
    names.extend(BARE.iter().chain([&OPEN_END]).map(|name| name.to_string()));
    names.extend(host::LENGTHS.iter().map(|kind| kind.0.to_string()));
    names.extend(bad::kinds().iter().map(|kind| kind.0.to_string()));
    names.extend(long::READ.iter().chain(&long::BAD).map(|kind| kind.0.to_string()));
    names.extend(WAYS.iter().chain([&BY_OCTETS]).map(|way| way.0.to_string()));
    names
}
