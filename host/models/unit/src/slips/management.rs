//! Allow, prohibit and restart.

use std::collections::BTreeMap;

use super::{slip, Slip};
use crate::management::{allow, prohibit, restart};
use crate::opening::leave;
use crate::Answer;

pub(super) const SLIPS: [Slip; 7] = [
    slip("AllowAgainCloses", "Allowing an allowed flow closes its sessions.", |rules| {
        rules.calls.allow = |unit, flow| {
            let is_again = unit.allowed.contains(&flow);
            let answer = allow(unit, flow);
            if is_again && answer == Answer::Done {
                unit.open_keys(flow).into_iter().for_each(|key| leave(unit, key));
            }
            answer
        };
    }),
    slip("ProhibitSilent", "Prohibiting makes no notices due.", |rules| {
        rules.calls.prohibit = |unit, flow| {
            let (keys, answer) = (unit.open_keys(flow), prohibit(unit, flow));
            if answer == Answer::Done {
                keys.into_iter().for_each(|key| leave(unit, key));
            }
            answer
        };
    }),
    slip("ProhibitSaysTimeout", "Prohibiting makes code 8 notices due.", |rules| {
        rules.machine.close = |session, _| session.close(8);
    }),
    slip("RestartKeepsNotices", "Restart keeps the notices that are due.", |rules| {
        rules.calls.restart = |unit, clock| {
            let (owed, answer): (BTreeMap<_, _>, _) = (unit.owed().collect(), restart(unit, clock));
            (unit.taken, unit.sessions) = (owed.len(), owed);
            answer
        };
    }),
    slip("RestartKeepsSessions", "Restart closes nothing.", |rules| {
        rules.calls.restart = |unit, clock| {
            let (kept, taken) = (unit.sessions.clone(), unit.taken);
            let answer = restart(unit, clock);
            (unit.sessions, unit.taken) = (kept, taken);
            answer
        };
    }),
    slip("RestartProhibitsAll", "Restart prohibits every flow.", |rules| {
        rules.calls.restart = |unit, clock| {
            unit.allowed.clear();
            restart(unit, clock)
        };
    }),
    slip("RestartKeepsClock", "Restart keeps the last reading.", |rules| {
        rules.calls.restart = |unit, _| restart(unit, unit.clock);
    }),
];
