//! A frame that was accepted and belongs to a flow.

use crate::session::Key;
use crate::{Address, Port, Session, Side, Unit};

/// What its call writes: the octets at the front of the output, and the answer.
pub(crate) type Written = (crate::Answer, Vec<u8>);

#[derive(Clone, Copy, Debug)]
pub(crate) struct Arrival<'a> {
    pub(crate) frame: &'a [u8],
    pub(crate) side: Side,
    pub(crate) port: Port,
    pub(crate) flow: u32,
    pub(crate) destination: Address,
    pub(crate) source: Address,
    /// The octets of the set's own tag; none in an untagged set.
    pub(crate) tag: &'a [u8],
    /// The PDU, if the frame is SOAM.
    pub(crate) pdu: Option<&'a [u8]>,
}

impl Arrival<'_> {
    pub(crate) fn tag_octets(&self) -> Option<[u8; 4]> {
        self.tag.try_into().ok()
    }
}

impl Unit {
    /// The machine of the frame.
    pub(crate) fn key(&self, arrival: &Arrival) -> Key {
        (self.rules.sets.key)(self, arrival.flow, arrival.source)
    }

    /// The open session of the frame's machine.
    pub(crate) fn session(&self, arrival: &Arrival) -> Option<Session> {
        self.sessions.get(&self.key(arrival)).copied().filter(Session::is_open)
    }

    pub(crate) fn is_allowed(&self, arrival: &Arrival) -> bool {
        self.allowed.contains(&arrival.flow)
    }
}
