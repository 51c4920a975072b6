//! The take-notice call.

use crate::arrival::Written;
use crate::frame::nothing;
use crate::refusal::Call;
use crate::reply::Reply;
use crate::session::Key;
use crate::{Answer, Session, Unit};

#[derive(Clone, Debug)]
pub(crate) struct NoticeRules {
    /// NOTICE-4: the one that goes first.
    pub(crate) first: fn(&Unit) -> Option<(Key, Session)>,
    /// NOTICE-5: the reply that a notice is.
    pub(crate) reply: fn(&Unit, Key, Session) -> Reply<'static>,
}

impl Default for NoticeRules {
    fn default() -> NoticeRules {
        NoticeRules { first: |unit| unit.owed().next(), reply }
    }
}

pub(crate) fn notice(unit: &mut Unit, out_len: usize) -> Written {
    if let Some(refused) = unit.refusal(Call::Notice { out_len }) {
        return nothing(refused);
    }
    let (key, session) = (unit.rules.notices.first)(unit).expect("else it was refused");
    (unit.rules.machine.leave)(unit, key);
    let octets = unit.write(&(unit.rules.notices.reply)(unit, key, session));
    let (port, side, length) = (unit.plan.flows[&key.0].port, session.side.number(), octets.len());
    (unit.answer(Answer::Notice { port, side, length }), octets)
}

impl Unit {
    /// The sessions that a notice is due for; all sessions stand in ascending flow, then source.
    pub(crate) fn owed(&self) -> impl DoubleEndedIterator<Item = (Key, Session)> + '_ {
        self.sessions.iter().filter(|(_, session)| !session.is_open()).map(|(&key, &session)| (key, session))
    }
}

pub(crate) fn reply(unit: &Unit, (flow, source): Key, session: Session) -> Reply<'static> {
    let address = unit.plan.ports[&unit.plan.flows[&flow].port].address;
    let tag = session.tag.map_or(Vec::new(), Vec::from);
    Reply::of(source, address, tag, session.level, 2, session.notice.unwrap_or_default())
}
