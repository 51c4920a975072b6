//! How many calls there were, and what was rewritten.

use std::collections::BTreeMap;

use crate::later::kinds::{is_reply, KINDS};
use crate::later::pair::Pair;

#[derive(Default)]
pub struct Counts {
    pub calls: usize,
    pub rewritten: usize,
    /// Those of them that got a reply.
    pub replied: usize,
    kinds: BTreeMap<&'static str, usize>,
}

impl Counts {
    pub(crate) fn add(&mut self, pair: &Pair) {
        self.calls += 1;
        let Some(rewriting) = &pair.rewriting else {
            return;
        };
        self.rewritten += 1;
        self.replied += usize::from(is_reply(&pair.new));
        for (name, _) in KINDS.iter().filter(|(_, is_so)| is_so(rewriting, &pair.new)) {
            *self.kinds.entry(name).or_default() += 1;
        }
    }

    /// How many rewritten requests there were of each kind.
    pub fn table(&self) -> impl Iterator<Item = (&'static str, usize)> + '_ {
        KINDS.iter().map(|(name, _)| (*name, self.kinds.get(name).copied().unwrap_or(0)))
    }
}
