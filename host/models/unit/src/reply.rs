//! Replies: what one says, and its octets.

use crate::arrival::Written;
use crate::reply_parts::{copies, status, timer, ACTIVE, EXTERNAL};
use crate::request::Question;
use crate::target::Target;
use crate::{Address, Answer, Detail, Mark, MpKind, Session, Unit};

/// The most octets that a reply can have.
const LONGEST: usize = 2008;

/// All that a reply says.
#[derive(Clone, Debug)]
pub(crate) struct Reply<'a> {
    pub(crate) destination: Address,
    pub(crate) source: Address,
    pub(crate) tag: Vec<u8>,
    pub(crate) level: u8,
    pub(crate) version: u8,
    pub(crate) flags: u8,
    pub(crate) offset: u8,
    pub(crate) message_type: u8,
    pub(crate) code: u8,
    pub(crate) port: Address,
    pub(crate) seconds: Option<u32>,
    pub(crate) copies: Vec<&'a [u8]>,
}

/// What a reply is about: a request, and its session after the call.
pub(crate) struct Told<'q, 'a> {
    pub(crate) question: &'q Question<'a>,
    pub(crate) session: Option<Session>,
}

/// Says a part of a reply.
pub(crate) type Part = for<'a> fn(&mut Reply<'a>, &Told<'_, 'a>);

#[derive(Clone, Debug)]
pub(crate) struct ReplyRules {
    /// What a reply to a request says beside what every reply does.
    pub(crate) parts: Vec<Part>,
    pub(crate) octets: fn(&Reply) -> Vec<u8>,
    /// REQUEST-16: whether the request is forwarded as well.
    pub(crate) goes_on: fn(&Target) -> bool,
}

impl Default for ReplyRules {
    fn default() -> ReplyRules {
        ReplyRules {
            parts: vec![status as Part, timer as Part, copies],
            octets,
            goes_on: |target| target.is_multicast && target.mp == MpKind::Mip,
        }
    }
}

impl Unit {
    pub(crate) fn reply_to(&mut self, question: &Question, code: u8, session: Option<Session>) -> Written {
        let Question { arrival, target, reading } = question;
        let (address, tag) = (arrival.port.address, arrival.tag.to_vec());
        let mut reply = Reply::of(arrival.source, address, tag, target.level, reading.message_type, code);
        self.rules.replies.parts.iter().for_each(|part| part(&mut reply, &Told { question, session }));
        self.detail(Detail::FlagExternal, reply.flags & (ACTIVE | EXTERNAL) == ACTIVE | EXTERNAL);
        self.detail(Detail::FlagCen, reply.flags & (ACTIVE | EXTERNAL) == ACTIVE);
        let octets = self.write(&reply);
        let length = octets.len();
        self.detail(Detail::LongestReply, length == LONGEST);
        match (self.rules.replies.goes_on)(target) {
            true => (Answer::ReplyAndForward { length }, octets),
            false => (Answer::Reply { length }, octets),
        }
    }

    pub(crate) fn write(&mut self, reply: &Reply) -> Vec<u8> {
        self.mark(Mark::Code(reply.code));
        (self.rules.replies.octets)(reply)
    }
}

impl<'a> Reply<'a> {
    /// REPLY-5.
    pub(crate) fn of(to: Address, port: Address, tag: Vec<u8>, level: u8, message_type: u8, code: u8) -> Reply<'a> {
        Reply {
            destination: to,
            source: port,
            tag,
            level,
            version: 0,
            flags: 0,
            offset: 8,
            message_type,
            code,
            port,
            seconds: None,
            copies: Vec::new(),
        }
    }
}

/// REPLY-14: the whole frame, with the copies and End last.
pub(crate) fn octets(reply: &Reply) -> Vec<u8> {
    let mut octets = [&reply.destination, &reply.source, &reply.tag[..]].concat();
    octets.extend([0x89, 0x02, reply.level << 5 | reply.version, 56, reply.flags]);
    octets.extend([reply.offset, reply.message_type, reply.code]);
    octets.extend(reply.port);
    octets.extend(reply.seconds.map_or(Vec::new(), timer_tlv));
    octets.extend(reply.copies.concat());
    octets.push(0);
    octets
}

pub(crate) fn timer_tlv(seconds: u32) -> Vec<u8> {
    [&[37, 0, 5, 1], &seconds.to_be_bytes()[..]].concat()
}
