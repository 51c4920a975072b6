//! From a plan's text to the plan, or to its first faulty line.

use std::collections::BTreeMap;

use crate::plan_rules::PlanRules;
use crate::record::Record;
use crate::{Answer, Flaw, Flow, Mark, Plan, Port};

#[derive(Clone, Copy, Debug, PartialEq, Eq)]
pub struct PlanFault {
    pub line: u32,
    pub reason: u8,
    /// What the reason stands for here; no part of the answer.
    pub flaw: Flaw,
}

impl PlanFault {
    fn at(line: u32, flaw: Flaw) -> PlanFault {
        PlanFault { line, reason: flaw.reason(), flaw }
    }

    /// What the make call did.
    pub fn marks(self) -> Vec<Mark> {
        let outcome = Answer::from(self).outcome();
        vec![Mark::Plan(self.flaw), Mark::Reason(self.reason), Mark::Outcome(outcome)]
    }
}

/// A line's number, and its octets with the LF that ends it.
pub(crate) type Line<'a> = (u32, &'a [u8]);

/// The plan as far as it was read.
pub(crate) struct PlanReader<'a> {
    pub(crate) rules: &'a PlanRules,
    pub(crate) plan: Plan,
}

impl PlanReader<'_> {
    pub(crate) fn read(rules: &PlanRules, text: &[u8]) -> Result<Plan, PlanFault> {
        if text.len() > rules.most_octets {
            return Err(PlanFault::at(0, Flaw::LongText));
        }
        let mut reader = PlanReader { rules, plan: Plan::default() };
        for (number, line) in (rules.lines)(text) {
            reader.line(line).map_err(|flaw| PlanFault::at(number, flaw))?;
        }
        if reader.plan.ports.len() < rules.least_ports {
            return Err(PlanFault::at(0, Flaw::NoPort));
        }
        Ok(reader.plan)
    }

    fn line(&mut self, line: &[u8]) -> Result<(), Flaw> {
        let line = (self.rules.ended)(line).ok_or(Flaw::NoLineEnd)?;
        let record = self.record(line)?;
        if let Some(&flaw) = self.rules.flaws.iter().find(|&&flaw| self.has(flaw, &record)) {
            return Err(flaw);
        }
        self.take(record);
        Ok(())
    }

    /// Takes a record in which no flaw was found, so that its numbers are small.
    fn take(&mut self, record: Record) {
        match record {
            Record::Port { number, kind, address } => {
                self.plan.ports.insert(number as u32, Port { kind, address });
            }
            Record::Flow { number, port, kind, vid } => {
                let flow = Flow { port: port as u32, kind, vid: vid as u16, mps: BTreeMap::new() };
                self.plan.flows.insert(number as u32, flow);
            }
            Record::Mp { flow, kind, level } => {
                if let Some(flow) = self.plan.flows.get_mut(&(flow as u32)) {
                    flow.mps.insert(level as u8, kind);
                }
            }
        }
    }
}

pub(crate) fn lines(text: &[u8]) -> Vec<Line<'_>> {
    (1..).zip(text.split_inclusive(|&octet| octet == b'\n')).collect()
}
