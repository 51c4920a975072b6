//! Notices.

use super::{slip, Slip};
use crate::notice::{notice, reply};
use crate::reply::Reply;
use crate::reply_parts::active;
use crate::Answer;

pub(super) const SLIPS: [Slip; 5] = [
    slip("NoticeBySource", "Notices leave in ascending source, then flow.", |rules| {
        rules.notices.first = |unit| unit.owed().min_by_key(|&((flow, source), _)| (source, flow));
    }),
    slip("NoticeLastFirst", "Notices leave in descending order.", |rules| {
        rules.notices.first = |unit| unit.owed().next_back();
    }),
    slip("NoticeSaysActive", "A notice has the flags that its session had.", |rules| {
        rules.notices.reply = |unit, key, session| {
            let flags = active(session.side);
            Reply { flags, ..reply(unit, key, session) }
        };
    }),
    slip("NoticeWithTimer", "A notice carries a timer of 0 seconds.", |rules| {
        rules.notices.reply = |unit, key, session| Reply { seconds: Some(0), ..reply(unit, key, session) };
    }),
    slip("NoticeToOtherSide", "A notice goes to the other side.", |rules| {
        rules.calls.notice = |unit, out_len| match notice(unit, out_len) {
            (Answer::Notice { port, side, length }, octets) => {
                (Answer::Notice { port, side: 1 - side, length }, octets)
            }
            refused => refused,
        };
    }),
];
