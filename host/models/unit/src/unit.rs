//! The unit: its plan and all that changes.

use std::collections::{BTreeMap, BTreeSet};

use crate::session::Key;
use crate::{Answer, Detail, Mark, Plan, Rules, Session};

#[derive(Clone, Debug)]
pub struct Unit {
    pub(crate) rules: Rules,
    pub(crate) plan: Plan,
    /// The last accepted reading.
    pub(crate) clock: u32,
    pub(crate) allowed: BTreeSet<u32>,
    /// In ascending flow, then source.
    pub(crate) sessions: BTreeMap<Key, Session>,
    /// How many places of the table of sessions are taken.
    pub(crate) taken: usize,
    marks: Vec<Mark>,
}

impl Unit {
    /// All flows prohibited and no session.
    pub(crate) fn start(plan: Plan, clock: u32) -> Unit {
        Unit {
            rules: Rules::default(),
            plan,
            clock,
            allowed: BTreeSet::new(),
            sessions: BTreeMap::new(),
            taken: 0,
            marks: Vec::new(),
        }
    }

    /// The same unit, which goes by these rules from now on.
    pub fn going_by(mut self, rules: Rules) -> Unit {
        self.rules = rules;
        self
    }

    pub fn plan(&self) -> &Plan {
        &self.plan
    }

    /// What was done since the last time this was asked, oldest first.
    pub fn take_marks(&mut self) -> Vec<Mark> {
        std::mem::take(&mut self.marks)
    }

    pub(crate) fn mark(&mut self, mark: Mark) {
        self.marks.push(mark);
    }

    pub(crate) fn detail(&mut self, detail: Detail, happened: bool) {
        if happened {
            self.mark(Mark::Detail(detail));
        }
    }

    pub(crate) fn is_notice_due(&self) -> bool {
        self.sessions.values().any(|session| !session.is_open())
    }

    pub(crate) fn done(&mut self) -> Answer {
        self.answer(Answer::Done)
    }

    pub(crate) fn answer(&mut self, answer: Answer) -> Answer {
        self.mark(Mark::Outcome(answer.outcome()));
        answer
    }
}
