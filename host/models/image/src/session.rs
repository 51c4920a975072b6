//! Sessions, open or owed a notice.

use crate::Address;

/// The longest time a session can have left: 86,400 seconds.
pub const MOST_MS: u32 = 86_400_000;

#[derive(Clone, Copy, Debug, PartialEq, Eq)]
pub enum Side {
    External = 0,
    Cen = 1,
}

#[derive(Clone, Copy, Debug, PartialEq, Eq)]
pub struct Session {
    pub flow: u8,
    pub source: Address,
    pub level: u8,
    pub side: Side,
    /// The four tag octets of the first Activate as one number; none in an untagged set.
    pub tag: Option<u32>,
    /// 0 in one that is owed a notice.
    pub ms_left: u32,
    /// The code of the notice it is owed; none while it is open.
    pub notice: Option<u8>,
}

impl Session {
    /// Port and frame set are one to one with the flow's number, so that the machine's key is flow and source.
    pub fn key(&self) -> (u8, Address) {
        (self.flow, self.source)
    }

    pub fn is_open(&self) -> bool {
        self.notice.is_none()
    }
}
