//! Reasons 2, 3, 4 and 7: out of range, not named, repeated, a 33rd MP.

use crate::address::is_group;
use crate::plan_read::PlanReader;
use crate::record::Record;
use crate::{Flaw, Flow, Port, SetKind};

impl PlanReader<'_> {
    /// Whether the record has the flaw, beside the plan as far as it was read.
    pub(crate) fn has(&self, flaw: Flaw, record: &Record) -> bool {
        match *record {
            Record::Port { number, address, .. } => match flaw {
                Flaw::PortNumber => !is_port(number),
                Flaw::GroupAddress => is_group(address),
                Flaw::ZeroAddress => address == [0; 6],
                Flaw::SamePortNumber => self.port(number).is_some(),
                Flaw::SameAddress => self.plan.ports.values().any(|port| port.address == address),
                _ => false,
            },
            Record::Flow { number, port, kind, vid } => match flaw {
                Flaw::FlowNumber => !is_flow(number),
                Flaw::ReferredPort => !is_port(port),
                Flaw::TaggedVid => kind != SetKind::U && !(1..=self.rules.last_vid).contains(&vid),
                Flaw::UntaggedVid => kind == SetKind::U && vid != 0,
                Flaw::WrongKind => self.port(port).is_some_and(|port| !port.kind.can_have(kind)),
                Flaw::UnnamedPort => self.port(port).is_none(),
                Flaw::SameFlowNumber => self.flow(number).is_some(),
                Flaw::SameSet => self.plan.flows.values().any(|flow| (self.rules.is_same_set)(flow, port, kind, vid)),
                _ => false,
            },
            Record::Mp { flow, level, .. } => match flaw {
                Flaw::ReferredFlow => !is_flow(flow),
                Flaw::Level => level > 7,
                Flaw::UnnamedFlow => self.flow(flow).is_none(),
                Flaw::SameLevel => self.flow(flow).is_some_and(|flow| has_level(flow, level)),
                Flaw::ThirtyThirdMp => self.plan.mp_count() >= self.rules.most_mps,
                _ => false,
            },
        }
    }

    fn port(&self, number: u64) -> Option<&Port> {
        self.plan.ports.iter().find(|(&named, _)| u64::from(named) == number).map(|(_, port)| port)
    }

    fn flow(&self, number: u64) -> Option<&Flow> {
        self.plan.flows.iter().find(|(&named, _)| u64::from(named) == number).map(|(_, flow)| flow)
    }
}

fn is_port(number: u64) -> bool {
    (1..=8).contains(&number)
}

fn is_flow(number: u64) -> bool {
    (1..=32).contains(&number)
}

fn has_level(flow: &Flow, level: u64) -> bool {
    flow.mps.keys().any(|&named| u64::from(named) == level)
}
