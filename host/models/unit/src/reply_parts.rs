//! What a reply tells of its request and of the session: flags, timer and copies.

use crate::reply::{Reply, Told};
use crate::{Request, Session, Side};

pub(crate) const ACTIVE: u8 = 1;
pub(crate) const EXTERNAL: u8 = 2;
pub(crate) const COPIED: u8 = 4;

/// REPLY-7.
pub(crate) fn status(reply: &mut Reply, told: &Told) {
    let session = told.session.filter(|_| Request::of(reply.message_type).is_some());
    reply.flags |= session.map_or(0, |session| active(session.side));
}

/// REPLY-8: the flags of a session from that side.
pub(crate) fn active(side: Side) -> u8 {
    match side {
        Side::External => ACTIVE | EXTERNAL,
        Side::Cen => ACTIVE,
    }
}

/// REPLY-11.
pub(crate) fn timer(reply: &mut Reply, told: &Told) {
    if matches!(reply.message_type, 1 | 3) && reply.code != 1 {
        reply.seconds = Some(seconds_left(told.session));
    }
}

/// REPLY-12.
pub(crate) fn seconds_left(session: Option<Session>) -> u32 {
    session.map_or(0, |session| session.ms_left.div_ceil(1000))
}

/// REPLY-15: with code 1 nothing is copied.
pub(crate) fn copies<'a>(reply: &mut Reply<'a>, told: &Told<'_, 'a>) {
    if reply.code != 1 {
        copy(reply, told);
    }
}

/// REPLY-9.
pub(crate) fn copy<'a>(reply: &mut Reply<'a>, told: &Told<'_, 'a>) {
    reply.copies = told.question.reading.unknown.clone();
    if !reply.copies.is_empty() {
        reply.flags |= COPIED;
    }
}
