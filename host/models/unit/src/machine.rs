//! The machine's answers to requests: nine cells.

use crate::opening::{close, leave, open, refresh};
use crate::request::Question;
use crate::session::Key;
use crate::{Mark, Request, Session, Standing, State, Unit};

/// Gives the response code; the state is the next one.
pub(crate) type Cell = fn(&mut Unit, &Question) -> u8;

#[derive(Clone, Debug)]
pub(crate) struct MachineRules {
    /// Activate, Deactivate and State by inactive; active, same level and side; active, other MP.
    pub(crate) table: [[Cell; 3]; 3],
    /// MACHINE-12: whether the request is at the session's own MP.
    pub(crate) is_same: fn(&Session, &Question) -> bool,
    /// MACHINE-3, MACHINE-4: the seconds that are served.
    pub(crate) least_seconds: u32,
    pub(crate) most_seconds: u32,
    /// UNIT-2: how many sessions may be open.
    pub(crate) most_open: usize,
    /// Whether no session can be opened with that key.
    pub(crate) is_full: fn(&Unit, Key) -> bool,
    /// MACHINE-18: a Deactivate frees the place.
    pub(crate) leave: fn(&mut Unit, Key),
    /// What closing does to a session that a notice of that code is due for.
    pub(crate) close: fn(&mut Session, u8),
}

impl Default for MachineRules {
    fn default() -> MachineRules {
        MachineRules {
            table: [[open, refresh, |_, _| 7], [|_, _| 5, close, |_, _| 7], [|_, _| 0, |_, _| 0, |_, _| 0]],
            is_same: |session, Question { target, arrival, .. }| {
                session.level == target.level && session.side == arrival.side
            },
            least_seconds: 1,
            most_seconds: 86_400,
            most_open: 16,
            is_full: |unit, _| unit.taken >= unit.rules.machine.most_open,
            leave,
            close: Session::close,
        }
    }
}

impl Unit {
    pub(crate) fn decide(&mut self, request: Request, question: &Question) -> u8 {
        let (state, standing) = match self.session(&question.arrival) {
            None => (State::Inactive, Standing::Inactive),
            Some(session) if (self.rules.machine.is_same)(&session, question) => (State::Active, Standing::Same),
            Some(_) => (State::Active, Standing::Other),
        };
        self.mark(Mark::Entry(state, request.event()));
        self.mark(Mark::Cell(request, standing));
        self.rules.machine.table[request as usize][standing as usize](self, question)
    }
}
