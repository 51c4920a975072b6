//! The state of a unit.

use std::collections::BTreeSet;

use crate::{Fault, Flow, Port, Session};

/// The order in which the rows are listed is no part of the state, though `==` compares it: see [`State::ordered`].
#[derive(Clone, Debug, PartialEq, Eq)]
pub struct State {
    pub ports: Vec<Port>,
    pub flows: Vec<Flow>,
    /// The last accepted reading of the clock, in ms.
    pub clock: u32,
    /// The numbers of the allowed flows; the others are prohibited.
    pub allowed: BTreeSet<u8>,
    pub sessions: Vec<Session>,
}

impl State {
    pub fn is_valid(&self) -> bool {
        self.faults().is_empty()
    }

    /// Everything that keeps the state from being valid.
    pub fn faults(&self) -> Vec<Fault> {
        self.plan_faults().chain(self.session_faults()).collect()
    }

    pub fn port(&self, number: u8) -> Option<&Port> {
        self.ports.iter().find(|port| port.number == number)
    }

    pub fn flow(&self, number: u8) -> Option<&Flow> {
        self.flows.iter().find(|flow| flow.number == number)
    }

    pub fn mp_count(&self) -> usize {
        self.flows.iter().map(Flow::mp_count).sum()
    }

    /// The same state, its rows in the order in which they stand in the image.
    pub fn ordered(&self) -> State {
        let mut state = self.clone();
        state.ports.sort_by_key(|port| port.number);
        state.flows.sort_by_key(Flow::set);
        state.sessions.sort_by_key(Session::key);
        state
    }
}
