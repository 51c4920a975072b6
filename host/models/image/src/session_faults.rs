//! STATE-3 to STATE-10: what stands beside the plan, allowed flows and sessions.

use crate::fault::Check;
use crate::plan_faults::has_repeat;
use crate::{Fault, Flow, Session, State, MOST_MS};

pub(crate) const CHECKS: [Check; 4] = [
    (Fault::UnnamedAllowed, |state| state.allowed.iter().any(|&number| state.flow(number).is_none())),
    (Fault::SeventeenthSession, |state| state.sessions.len() > 16),
    (Fault::EqualKeys, |state| has_repeat(&state.sessions, Session::key)),
    (Fault::UnnamedFlow, |state| state.sessions.iter().any(|session| state.flow(session.flow).is_none())),
];

/// A fault, and whether a session of that flow has it, which is allowed or not.
type SessionCheck = (Fault, fn(&Session, &Flow, bool) -> bool);

pub(crate) const SESSION_CHECKS: [SessionCheck; 11] = [
    (Fault::GroupSource, |session, _, _| session.source.is_group()),
    (Fault::WrongTag, |session, flow, _| !flow.has_tag(session.tag)),
    (Fault::GoneMp, |session, flow, _| flow.mp(session.level).is_none()),
    (Fault::WrongSide, |session, flow, _| flow.mp(session.level).is_some_and(|mp| !mp.faces(session.side))),
    (Fault::ProhibitedSession, |session, _, allowed| session.is_open() && !allowed),
    (Fault::NoTime, |session, _, _| session.is_open() && session.ms_left == 0),
    (Fault::LongTime, |session, _, _| session.is_open() && session.ms_left > MOST_MS),
    (Fault::UnknownNotice, |session, _, _| session.notice.is_some_and(|code| code != 8 && code != 9)),
    (Fault::NoticeTime, |session, _, _| !session.is_open() && session.ms_left != 0),
    (Fault::ProhibitedNotice, |session, _, allowed| session.notice == Some(8) && !allowed),
    (Fault::AllowedNotice, |session, _, allowed| session.notice == Some(9) && allowed),
];

impl State {
    pub(crate) fn session_faults(&self) -> impl Iterator<Item = Fault> + '_ {
        let of_state = CHECKS.iter().filter(|(_, is_there)| is_there(self)).map(|&(fault, _)| fault);
        of_state.chain(self.sessions.iter().flat_map(|session| self.faults_of(session)))
    }

    /// A session whose flow is not in the plan has that fault alone.
    fn faults_of(&self, session: &Session) -> Vec<Fault> {
        let Some(flow) = self.flow(session.flow) else {
            return Vec::new();
        };
        let allowed = self.allowed.contains(&flow.number);
        let found = SESSION_CHECKS.iter().filter(|(_, is_there)| is_there(session, flow, allowed));
        found.map(|&(fault, _)| fault).collect()
    }
}
