//! The machine's answers.

use super::{slip, Slip};
use crate::opening::{close, open, refresh};
use crate::request::Question;
use crate::{Request, Rules, Standing, Unit};

pub(super) const SLIPS: [Slip; 18] = [
    slip("SecondsJudgedElsewhere", "Bad seconds get code 6 before code 7.", |rules| {
        *activate(rules, Standing::Other) = |unit, question| if has_good_seconds(unit, question) { 7 } else { 6 };
    }),
    slip("FullBeforeSeconds", "A full table gets code 2 before code 6.", |rules| {
        *activate(rules, Standing::Inactive) =
            |unit, question| if is_full(unit, question) { 2 } else { open(unit, question) };
    }),
    slip("FullRefusesRefresh", "A full table refuses a refresh.", |rules| {
        *activate(rules, Standing::Same) =
            |unit, question| if is_full(unit, question) { 2 } else { refresh(unit, question) };
    }),
    slip("SeventeenthOpened", "A 17th session is opened.", |rules| rules.machine.most_open = 17),
    slip("LimitOfFlow", "Each flow can have 16 sessions open.", |rules| {
        rules.machine.is_full = |unit, (flow, _)| unit.open_keys(flow).len() >= unit.rules.machine.most_open;
    }),
    slip("ClosedPlaceKept", "A closed session's place is not used again.", |rules| {
        rules.machine.leave = |unit, key| {
            unit.sessions.remove(&key);
        };
    }),
    slip("ZeroSecondsTaken", "0 seconds are good.", |rules| rules.machine.least_seconds = 0),
    slip("MostSecondsRefused", "86,400 seconds are bad.", |rules| rules.machine.most_seconds = 86_399),
    slip("OneSecondMoreTaken", "86,401 seconds are good.", |rules| rules.machine.most_seconds = 86_401),
    slip("RefreshFromOtherLevel", "A refresh can come from another level.", |rules| {
        rules.machine.is_same = |session, question| {
            let is_level = session.level == question.target.level || is_activate(question);
            is_level && session.side == question.arrival.side
        };
    }),
    slip("RefreshFromOtherSide", "A refresh can come from the other side.", |rules| {
        rules.machine.is_same = |session, question| {
            let is_side = session.side == question.arrival.side || is_activate(question);
            is_side && session.level == question.target.level
        };
    }),
    slip("RefreshAddsTime", "A refresh adds its seconds to those left.", |rules| {
        *activate(rules, Standing::Same) = |unit, question| {
            let left = unit.session(&question.arrival).map_or(0, |session| session.ms_left);
            let code = refresh(unit, question);
            if code == 4 {
                let key = unit.key(&question.arrival);
                unit.sessions.entry(key).and_modify(|session| session.ms_left = session.ms_left.saturating_add(left));
            }
            code
        };
    }),
    slip("RefreshTakesTag", "A refresh changes the session's tag.", |rules| {
        *activate(rules, Standing::Same) = |unit, question| {
            let (code, key, tag) =
                (refresh(unit, question), unit.key(&question.arrival), question.arrival.tag_octets());
            if code == 4 {
                unit.sessions.entry(key).and_modify(|session| session.tag = tag);
            }
            code
        };
    }),
    slip("RefreshPlainFine", "A refresh gets code 0.", |rules| {
        *activate(rules, Standing::Same) = |unit, question| match refresh(unit, question) {
            4 => 0,
            code => code,
        };
    }),
    slip("IdleDeactivateFine", "A Deactivate of an inactive machine gets code 0.", |rules| {
        rules.machine.table[Request::Deactivate as usize][Standing::Inactive as usize] = |_, _| 0;
    }),
    slip("BadRefreshCloses", "A refresh with bad seconds closes the session.", |rules| {
        *activate(rules, Standing::Same) = |unit, question| {
            let code = refresh(unit, question);
            if code == 6 {
                close(unit, question);
            }
            code
        };
    }),
    slip("DeactivateElsewhere", "A Deactivate at another MP closes the session.", |rules| {
        rules.machine.table[Request::Deactivate as usize][Standing::Other as usize] = close;
    }),
    slip("StateElsewhereWrong", "A State at another MP gets code 7.", |rules| {
        rules.machine.table[Request::AskState as usize][Standing::Other as usize] = |_, _| 7;
    }),
];

/// What an Activate meets there.
fn activate(rules: &mut Rules, standing: Standing) -> &mut crate::machine::Cell {
    &mut rules.machine.table[Request::Activate as usize][standing as usize]
}

fn is_activate(question: &Question) -> bool {
    Request::of(question.reading.message_type) == Some(Request::Activate)
}

fn has_good_seconds(unit: &Unit, question: &Question) -> bool {
    unit.good(question.reading.seconds()).is_some()
}

fn is_full(unit: &Unit, question: &Question) -> bool {
    (unit.rules.machine.is_full)(unit, unit.key(&question.arrival))
}
