//! How often the runs came upon what they should come upon.

use std::collections::BTreeMap;

use model::Mark;

use crate::scene::Scene;
use crate::scenes::{EVENTS, LENGTHS, REFUSALS, STATES};

#[derive(Default)]
pub struct Coverage {
    pub calls: usize,
    counts: BTreeMap<String, usize>,
}

impl Coverage {
    pub(crate) fn add(&mut self, marks: Vec<Mark>, scene: &Scene) {
        self.calls += 1;
        marks.iter().for_each(|mark| self.count(format!("{mark:?}")));
        if scene.answer.refusal() > 0 {
            self.count(refused(scene.step.call.name(), scene.answer.refusal()));
        }
        let kinds = LENGTHS.iter().chain(&STATES).chain(&EVENTS);
        kinds.filter(|(_, is_so)| is_so(scene)).for_each(|(name, _)| self.count(name.to_string()));
    }

    fn count(&mut self, name: String) {
        *self.counts.entry(name).or_default() += 1;
    }

    /// Everything that runs should come upon, with how often they did.
    pub fn table(&self) -> Vec<(String, usize)> {
        let marks = Mark::all().into_iter().map(|mark| format!("{mark:?}"));
        let refusals =
            REFUSALS.into_iter().flat_map(|(call, numbers)| numbers.iter().map(move |&number| refused(call, number)));
        let kinds = LENGTHS.iter().chain(&STATES).chain(&EVENTS).map(|(name, _)| name.to_string());
        marks
            .chain(refusals)
            .chain(kinds)
            .map(|name| (name.clone(), self.counts.get(&name).copied().unwrap_or(0)))
            .collect()
    }

    /// What they did not come upon.
    pub fn missing(&self) -> Vec<String> {
        self.table().into_iter().filter(|(_, count)| *count == 0).map(|(name, _)| name).collect()
    }

    /// What they came upon though it can't be.
    pub fn impossible(&self) -> Vec<&String> {
        let table: BTreeMap<String, usize> = self.table().into_iter().collect();
        self.counts.keys().filter(|name| !table.contains_key(*name)).collect()
    }
}

fn refused(call: &str, number: u8) -> String {
    format!("{call} refused, number {number}")
}
