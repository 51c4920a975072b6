//! Numbers of rules, as PLAN-7, and runs of them, as CALL-1 to CALL-7.

use std::fmt;

use crate::words::words;

#[derive(Clone, Debug, PartialEq, Eq, PartialOrd, Ord)]
pub struct Rule {
    pub prefix: String,
    pub number: u32,
}

impl fmt::Display for Rule {
    fn fmt(&self, to: &mut fmt::Formatter) -> fmt::Result {
        write!(to, "{}-{}", self.prefix, self.number)
    }
}

/// One rule, or all from one to another.
pub struct Citation {
    pub line: usize,
    pub first: Rule,
    pub last: Rule,
}

impl Citation {
    /// The rules that are cited; none if the ends are of two prefixes, or the last is not behind the first.
    pub fn rules(&self) -> Vec<Rule> {
        let prefix = &self.first.prefix;
        let numbers = (self.first.number..=self.last.number).filter(|_| *prefix == self.last.prefix);
        numbers.map(|number| Rule { prefix: prefix.clone(), number }).collect()
    }
}

/// What a text cites. A run counts once, as a whole; its lines may be broken, in a comment too.
pub fn citations(text: &str) -> Vec<Citation> {
    let words = words(text, "-_");
    let mut citations = Vec::new();
    let mut at = 0;
    while at < words.len() {
        let (line, word) = words[at];
        at += 1;
        let Some(first) = rule(word) else { continue };
        let run = words.get(at..at + 2).filter(|next| next[0].1 == "to").and_then(|next| rule(next[1].1));
        at += if run.is_some() { 2 } else { 0 };
        citations.push(Citation { line, last: run.unwrap_or_else(|| first.clone()), first });
    }
    citations
}

/// The rule that a word is, or that stands before a further `-` of it.
pub fn rule(word: &str) -> Option<Rule> {
    let mut parts = word.split('-');
    let (prefix, number) = (parts.next()?, parts.next()?.parse().ok()?);
    let good = prefix.len() > 1 && prefix.chars().all(|c| c.is_ascii_uppercase());
    good.then(|| Rule { prefix: prefix.to_string(), number })
}
