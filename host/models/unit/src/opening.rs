//! Opening, restarting and closing sessions on request.

use crate::request::Question;
use crate::session::Key;
use crate::{Detail, Session, Unit};

/// MACHINE-3.
pub(crate) fn open(unit: &mut Unit, Question { arrival, target, reading }: &Question) -> u8 {
    let key = unit.key(arrival);
    let Some(seconds) = unit.good(reading.seconds()) else {
        return 6;
    };
    if (unit.rules.machine.is_full)(unit, key) {
        return 2;
    }
    let session = Session {
        level: target.level,
        side: arrival.side,
        tag: arrival.tag_octets(),
        ms_left: seconds * 1000,
        notice: None,
    };
    unit.sessions.insert(key, session);
    unit.taken += 1;
    0
}

/// MACHINE-4.
pub(crate) fn refresh(unit: &mut Unit, question: &Question) -> u8 {
    let key = unit.key(&question.arrival);
    let Some(seconds) = unit.good(question.reading.seconds()) else {
        unit.detail(Detail::RefusedRefresh, true);
        return 6;
    };
    unit.detail(Detail::RefreshInFullTable, (unit.rules.machine.is_full)(unit, key));
    if let Some(session) = unit.sessions.get_mut(&key) {
        session.ms_left = seconds * 1000;
    }
    4
}

/// MACHINE-7.
pub(crate) fn close(unit: &mut Unit, question: &Question) -> u8 {
    (unit.rules.machine.leave)(unit, unit.key(&question.arrival));
    0
}

/// Takes a session away.
pub(crate) fn leave(unit: &mut Unit, key: Key) {
    unit.sessions.remove(&key);
    unit.taken -= 1;
}

impl Unit {
    /// Seconds that a session can be opened or restarted with.
    pub(crate) fn good(&self, seconds: Option<u32>) -> Option<u32> {
        let rules = &self.rules.machine;
        seconds.filter(|seconds| (rules.least_seconds..=rules.most_seconds).contains(seconds))
    }
}
