//! Reading a request: its fields, its TLVs, and whether it is malformed.

use crate::arrival::Arrival;
use crate::target::Target;
use crate::tlv::{bad_tlv, first_tlv, is_timer, seconds_of, First};
use crate::{Detail, Malformed, Unit};

/// What a request says.
#[derive(Clone, Debug)]
pub(crate) struct Reading<'a> {
    pub(crate) message_type: u8,
    /// The TLVs up to End, or up to the bad place; whole, with type and length.
    pub(crate) tlvs: Vec<&'a [u8]>,
    /// Those of them that are unknown.
    pub(crate) unknown: Vec<&'a [u8]>,
    pub(crate) malformed: Option<Malformed>,
    pub(crate) has_more_after_end: bool,
}

impl Reading<'_> {
    /// The seconds of the timer.
    pub(crate) fn seconds(&self) -> Option<u32> {
        self.tlvs.iter().rev().find(|tlv| is_timer(tlv)).map(|tlv| seconds_of(tlv))
    }
}

#[derive(Clone, Debug)]
pub(crate) struct ReadingRules {
    /// REQUEST-6, REQUEST-7: whether the Loopback Port MAC is compared with the destination.
    pub(crate) has_port_compared: fn(&Target) -> bool,
    /// REQUEST-8, REQUEST-9: whether a version can have that offset.
    pub(crate) is_good_offset: fn(u8, u8) -> bool,
    /// TLV-1: the index of the first TLV, by the offset.
    pub(crate) first_at: fn(u8) -> usize,
    /// What stands first in a list of TLVs.
    pub(crate) first_tlv: fn(&[u8]) -> Result<First<'_>, Malformed>,
    /// Why a TLV behind these others is bad.
    pub(crate) bad_tlv: fn(&[u8], &[&[u8]]) -> Option<Malformed>,
    /// By the message type and whether a timer is there: "An Activate without a timer is malformed; in other requests
    /// it is ignored."
    pub(crate) lacks_timer: fn(u8, bool) -> bool,
    /// TLV-11: in a request of that message type.
    pub(crate) is_unknown: fn(u8, &[u8]) -> bool,
}

impl Default for ReadingRules {
    fn default() -> ReadingRules {
        ReadingRules {
            has_port_compared: |target| !target.is_multicast,
            is_good_offset: |version, offset| match version {
                0 => offset == 8,
                _ => offset >= 8,
            },
            first_at: |offset| 4 + usize::from(offset),
            first_tlv,
            bad_tlv,
            lacks_timer: |message_type, has_timer| message_type == 1 && !has_timer,
            is_unknown: |_, tlv| !is_timer(tlv),
        }
    }
}

impl Unit {
    pub(crate) fn read_request<'a>(&mut self, arrival: &Arrival, target: &Target<'a>) -> Reading<'a> {
        let reading = self.reading(arrival, target);
        if reading.malformed.is_none() {
            self.mark_reading(target, &reading);
        }
        reading
    }

    pub(crate) fn reading<'a>(&self, arrival: &Arrival, target: &Target<'a>) -> Reading<'a> {
        let (pdu, rules) = (target.pdu, &self.rules.reading);
        let list = pdu.get((rules.first_at)(pdu[3])..).unwrap_or(&[]);
        let mut tlvs = Vec::new();
        let after_end = self.walk(list, &mut tlvs);
        let is_unknown = |tlv: &&[u8]| (rules.is_unknown)(pdu[4], tlv);
        let mut reading = Reading {
            message_type: pdu[4],
            unknown: tlvs.iter().copied().filter(is_unknown).collect(),
            tlvs,
            malformed: self.bad_header(arrival, target).or(after_end.err()),
            has_more_after_end: after_end.is_ok_and(|octets| !octets.is_empty()),
        };
        if reading.malformed.is_none() && (rules.lacks_timer)(reading.message_type, reading.seconds().is_some()) {
            reading.malformed = Some(Malformed::NoTimer);
        }
        reading
    }

    fn bad_header(&self, arrival: &Arrival, target: &Target) -> Option<Malformed> {
        let (pdu, rules) = (target.pdu, &self.rules.reading);
        let is_unlike = pdu.get(6..12) != Some(&arrival.destination[..]);
        if is_unlike && (rules.has_port_compared)(target) {
            return Some(Malformed::UnlikeAddress);
        }
        match pdu[0] & 0x1F {
            version if (rules.is_good_offset)(version, pdu[3]) => None,
            0 => Some(Malformed::FirstVersionOffset),
            _ => Some(Malformed::LaterVersionOffset),
        }
    }

    fn mark_reading(&mut self, target: &Target, reading: &Reading) {
        self.detail(Detail::TimerIgnored, reading.message_type != 1 && reading.seconds().is_some());
        self.detail(Detail::TlvCopied, !reading.unknown.is_empty());
        self.detail(Detail::SubtypeCopied, reading.unknown.iter().any(|tlv| tlv[0] == 37));
        self.detail(Detail::OctetsAfterEnd, reading.has_more_after_end);
        self.detail(Detail::LaterVersion, target.pdu[0] & 0x1F != 0);
        self.detail(Detail::OctetsBeforeTlvs, target.pdu[3] > 8);
    }
}
