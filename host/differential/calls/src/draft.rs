//! A frame call, before its frame is written.

use crate::pdu::Pdu;

pub(crate) const SOAM: u16 = 0x8902;

#[derive(Clone)]
pub(crate) struct Draft {
    pub(crate) port: u32,
    pub(crate) side: u32,
    pub(crate) destination: [u8; 6],
    pub(crate) source: [u8; 6],
    /// The octets of all tags.
    pub(crate) tags: Vec<u8>,
    pub(crate) ether_type: u16,
    /// What the frame carries, whether or not its type says so.
    pub(crate) pdu: Pdu,
}

impl Draft {
    pub(crate) fn octets(&self) -> Vec<u8> {
        let ether_type = self.ether_type.to_be_bytes();
        [&self.destination[..], &self.source, &self.tags, &ether_type, &self.pdu.octets()].concat()
    }
}

/// The class 2 address of that level.
pub(crate) fn class_two(level: u8) -> [u8; 6] {
    [0x01, 0x80, 0xC2, 0x00, 0x00, 0x38 + level]
}
