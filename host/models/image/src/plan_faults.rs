//! The plan's rules, in the scope's order.

use crate::fault::Check;
use crate::{Fault, Flow, SetKind, State};

pub(crate) const CHECKS: [Check; 13] = [
    (Fault::NoPort, |state| state.ports.is_empty()),
    (Fault::PortNumber, |state| state.ports.iter().any(|port| !(1..=8).contains(&port.number))),
    (Fault::SamePortNumber, |state| has_repeat(&state.ports, |port| port.number)),
    (Fault::GroupAddress, |state| state.ports.iter().any(|port| port.address.is_group())),
    (Fault::ZeroAddress, |state| state.ports.iter().any(|port| port.address.number() == 0)),
    (Fault::SameAddress, |state| has_repeat(&state.ports, |port| port.address)),
    (Fault::FlowNumber, |state| state.flows.iter().any(|flow| !(1..=32).contains(&flow.number))),
    (Fault::SameFlowNumber, |state| has_repeat(&state.flows, |flow| flow.number)),
    (Fault::UnnamedPort, |state| state.flows.iter().any(|flow| state.port(flow.port).is_none())),
    (Fault::WrongKind, |state| state.flows.iter().any(|flow| has_wrong_kind(state, flow))),
    (Fault::WrongVid, |state| state.flows.iter().any(has_wrong_vid)),
    (Fault::SameSet, |state| has_repeat(&state.flows, Flow::set)),
    (Fault::ThirtyThirdMp, |state| state.mp_count() > 32),
];

impl State {
    pub(crate) fn plan_faults(&self) -> impl Iterator<Item = Fault> + '_ {
        CHECKS.iter().filter(|(_, is_there)| is_there(self)).map(|&(fault, _)| fault)
    }
}

/// Whether two of the items have one key.
pub(crate) fn has_repeat<Item, Key: PartialEq>(items: &[Item], key: impl Fn(&Item) -> Key) -> bool {
    let is_repeat = |place: usize| items[..place].iter().any(|earlier| key(earlier) == key(&items[place]));
    (0..items.len()).any(is_repeat)
}

fn has_wrong_kind(state: &State, flow: &Flow) -> bool {
    state.port(flow.port).is_some_and(|port| !port.kind.can_have(flow.kind))
}

fn has_wrong_vid(flow: &Flow) -> bool {
    match flow.kind {
        SetKind::U => flow.vid != 0,
        SetKind::C | SetKind::S => !(1..=4094).contains(&flow.vid),
    }
}
