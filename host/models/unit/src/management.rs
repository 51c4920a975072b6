//! The allow, prohibit and restart calls.

use crate::refusal::Call;
use crate::session::Key;
use crate::{Answer, Detail, Event, Mark, State, Unit};

/// FLOW-1.
pub(crate) fn allow(unit: &mut Unit, flow: u32) -> Answer {
    if let Some(refused) = unit.refusal(Call::AllowOrProhibit { flow }) {
        return refused;
    }
    unit.mark_flow(flow, Event::Allow);
    unit.allowed.insert(flow);
    unit.done()
}

/// FLOW-2.
pub(crate) fn prohibit(unit: &mut Unit, flow: u32) -> Answer {
    if let Some(refused) = unit.refusal(Call::AllowOrProhibit { flow }) {
        return refused;
    }
    unit.mark_flow(flow, Event::Prohibit);
    unit.allowed.remove(&flow);
    let keys = unit.open_keys(flow);
    for key in &keys {
        if let Some(session) = unit.sessions.get_mut(key) {
            (unit.rules.machine.close)(session, 9);
        }
    }
    unit.detail(Detail::SeveralProhibited, keys.len() > 1);
    unit.done()
}

/// TIME-8.
pub(crate) fn restart(unit: &mut Unit, clock: u32) -> Answer {
    if let Some(refused) = unit.refusal(Call::Restart) {
        return refused;
    }
    unit.detail(Detail::RestartDropped, unit.is_notice_due());
    unit.detail(Detail::RestartClosed, unit.sessions.values().any(|session| session.is_open()));
    unit.sessions.clear();
    unit.taken = 0;
    unit.clock = clock;
    unit.done()
}

impl Unit {
    pub(crate) fn open_keys(&self, flow: u32) -> Vec<Key> {
        let of_flow = self.sessions.iter().filter(|(key, _)| key.0 == flow);
        of_flow.filter(|(_, session)| session.is_open()).map(|(&key, _)| key).collect()
    }

    /// The entry of each active machine of the flow; if it has none, that of the others.
    fn mark_flow(&mut self, flow: u32, event: Event) {
        let active = self.open_keys(flow).len();
        (0..active).for_each(|_| self.mark(Mark::Entry(State::Active, event)));
        if active == 0 {
            let state = if self.allowed.contains(&flow) { State::Inactive } else { State::Prohibited };
            self.mark(Mark::Entry(state, event));
        }
    }
}
