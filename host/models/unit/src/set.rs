//! Finding the machine: the frame set that a frame belongs to.

use crate::address::{address_at, is_group, pair_at};
use crate::arrival::Arrival;
use crate::session::Key;
use crate::{Address, PortKind, SetKind, Side, Unit};

const C_TAG: u16 = 0x8100;
const S_TAG: u16 = 0x88A8;
const SOAM: u16 = 0x8902;

listed! {
    /// Why a frame has no set.
    NoSet { GroupSource, WrongTag, CutTag, VidZero, VidLast, SetAbsent }
}

/// A set's kind and VID, and the count of its tag octets.
pub(crate) type Set = (SetKind, u16, usize);

pub(crate) const UNTAGGED: Set = (SetKind::U, 0, 0);

#[derive(Clone, Debug)]
pub(crate) struct SetRules {
    /// A group source address gives no set.
    pub(crate) has_set: fn(Address) -> bool,
    /// The set of a frame at a port of that kind.
    pub(crate) set: fn(PortKind, &[u8]) -> Result<Set, NoSet>,
    /// SET-13, SET-14: the PDU, if the frame is SOAM.
    pub(crate) pdu: fn(&[u8]) -> Option<&[u8]>,
    /// SET-12: the flow stands for port and set.
    pub(crate) key: fn(&Unit, u32, Address) -> Key,
}

impl Default for SetRules {
    fn default() -> SetRules {
        SetRules { has_set: |source| !is_group(source), set, pdu, key: |_, flow, source| (flow, source) }
    }
}

impl Unit {
    pub(crate) fn arrival<'a>(&self, number: u32, side: Side, frame: &'a [u8]) -> Result<Arrival<'a>, NoSet> {
        let rules = &self.rules.sets;
        let port = self.plan.ports[&number];
        let (destination, source) = (address_at(frame, 0), address_at(frame, 6));
        if !(rules.has_set)(source) {
            return Err(NoSet::GroupSource);
        }
        let (kind, vid, tags) = (rules.set)(port.kind, frame)?;
        let flow = self.plan.flow_of(number, kind, vid).ok_or(NoSet::SetAbsent)?;
        let (tag, after_tag) = frame[12..].split_at(tags);
        Ok(Arrival { frame, side, port, flow, destination, source, tag, pdu: (rules.pdu)(after_tag) })
    }
}

/// SET-4 to SET-9.
pub(crate) fn set(port: PortKind, frame: &[u8]) -> Result<Set, NoSet> {
    let first = pair_at(frame, 12);
    let (own, kind) = match port {
        PortKind::Uni => (C_TAG, SetKind::C),
        PortKind::Enni => (S_TAG, SetKind::S),
    };
    if !is_tag(first) {
        return Ok(UNTAGGED);
    }
    if first != own {
        return Err(NoSet::WrongTag);
    }
    if frame.len() < 18 {
        return Err(NoSet::CutTag);
    }
    match pair_at(frame, 14) & 0x0FFF {
        0 => Err(NoSet::VidZero),
        4095 => Err(NoSet::VidLast),
        vid => Ok((kind, vid, 4)),
    }
}

pub(crate) fn pdu(after_tag: &[u8]) -> Option<&[u8]> {
    (pair_at(after_tag, 0) == SOAM).then_some(&after_tag[2..])
}

pub(crate) fn is_tag(first: u16) -> bool {
    first == C_TAG || first == S_TAG
}
