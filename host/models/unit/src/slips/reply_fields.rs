//! What a reply says: its other fields, its octets, and where it goes.

use super::{slip, Slip};
use crate::address::address_at;
use crate::reply::{octets, timer_tlv, Reply};

pub(super) const SLIPS: [Slip; 10] = [
    slip("CopiesBeforeTimer", "Copied TLVs stand before the timer.", |rules| {
        rules.replies.octets = |reply| {
            let timer = reply.seconds.map_or(Vec::new(), timer_tlv);
            let copies = [&reply.copies[..], &[&timer[..]]].concat();
            octets(&Reply { seconds: None, copies, ..reply.clone() })
        };
    }),
    slip("VersionAsReceived", "The version is the request's.", |rules| {
        rules.replies.parts.push(|reply, told| reply.version = told.question.target.pdu[0] & 0x1F);
    }),
    slip("OffsetAsReceived", "The offset is the request's.", |rules| {
        rules.replies.parts.push(|reply, told| reply.offset = told.question.target.pdu[3]);
    }),
    slip("PortAsRequested", "The Loopback Port MAC is the request's.", |rules| {
        rules.replies.parts.push(|reply, told| reply.port = address_at(told.question.target.pdu, 6));
    }),
    slip("ReplyFromDestination", "The source is the request's destination.", |rules| {
        rules.replies.parts.push(|reply, told| reply.source = told.question.arrival.destination);
    }),
    slip("PriorityCleared", "The tag's priority bits are 0.", |rules| {
        rules.replies.octets = |reply| {
            let mut tag = reply.tag.clone();
            tag.iter_mut().skip(2).take(1).for_each(|octet| *octet &= 0x0F);
            octets(&Reply { tag, ..reply.clone() })
        };
    }),
    slip("EndLeftOut", "There is no End.", |rules| {
        rules.replies.octets = |reply| {
            let mut octets = octets(reply);
            octets.pop();
            octets
        };
    }),
    slip("ReplyPadded", "A reply has 60 octets at the least.", |rules| {
        rules.replies.octets = |reply| {
            let mut octets = octets(reply);
            octets.resize(octets.len().max(60), 0);
            octets
        };
    }),
    slip("MipOnlyReplies", "A MIP does not forward what it replies to.", |rules| rules.replies.goes_on = |_| false),
    slip("MepForwardsToo", "Every MP forwards a multicast request.", |rules| {
        rules.replies.goes_on = |target| target.is_multicast;
    }),
];
