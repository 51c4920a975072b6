//! Frames that are data: forwarded, dropped or looped.

use crate::address::is_group;
use crate::arrival::{Arrival, Written};
use crate::frame::nothing;
use crate::{Address, Answer, Detail, Event, Mark, Session, Side, State, Unit};

#[derive(Clone, Debug)]
pub(crate) struct DataRules {
    /// Whether an active machine of that level forwards a PDU: "SOAM of the session's level or below".
    pub(crate) passes: fn(&[u8], u8) -> bool,
    /// MACHINE-31: what becomes of data from the opposite side.
    pub(crate) from_other_side: fn(&mut Unit, &Arrival) -> Written,
    /// Whether a looped frame's destination is a group's.
    pub(crate) is_group: fn(Address) -> bool,
}

impl Default for DataRules {
    fn default() -> DataRules {
        DataRules { passes, from_other_side: |_, _| nothing(Answer::Drop), is_group }
    }
}

impl Unit {
    pub(crate) fn data(&mut self, arrival: &Arrival) -> Written {
        let session = self.session(arrival);
        let event = match arrival.side {
            Side::External => Event::IngressData,
            Side::Cen => Event::EgressData,
        };
        let state = match session {
            Some(_) => State::Active,
            None if self.is_allowed(arrival) => State::Inactive,
            None => State::Prohibited,
        };
        self.mark(Mark::Entry(state, event));
        match session {
            None => nothing(Answer::Forward),
            Some(session) => self.active_data(arrival, &session),
        }
    }

    fn active_data(&mut self, arrival: &Arrival, session: &Session) -> Written {
        if let Some(pdu) = arrival.pdu {
            self.detail(Detail::SoamEmpty, pdu.is_empty());
            self.detail(Detail::SoamAtLevel, level(pdu) == session.level);
            self.detail(Detail::SoamBelow, level(pdu) < session.level);
            if (self.rules.data.passes)(pdu, session.level) {
                return nothing(Answer::Forward);
            }
        }
        if arrival.side == session.side {
            return looped(self, arrival);
        }
        self.detail(Detail::OtherSideDrop, true);
        (self.rules.data.from_other_side)(self, arrival)
    }
}

pub(crate) fn passes(pdu: &[u8], session_level: u8) -> bool {
    level(pdu) <= session_level
}

/// MACHINE-29: an empty PDU has level 0.
pub(crate) fn level(pdu: &[u8]) -> u8 {
    pdu.first().map_or(0, |first| first >> 5)
}

/// MACHINE-32, MACHINE-33.
pub(crate) fn looped(unit: &mut Unit, arrival: &Arrival) -> Written {
    let is_group = (unit.rules.data.is_group)(arrival.destination);
    unit.detail(Detail::LoopGroup, is_group);
    unit.detail(Detail::LoopSwapped, !is_group);
    unit.detail(Detail::LoopSoamAbove, arrival.pdu.is_some());
    let from = if is_group { arrival.port.address } else { arrival.destination };
    let octets = [&arrival.source, &from, &arrival.frame[12..]].concat();
    (Answer::Loop { length: octets.len() }, octets)
}
