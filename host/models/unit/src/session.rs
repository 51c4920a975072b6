//! Sessions, open or owed a notice.

use crate::{Address, Side};

/// A machine's key: its flow, which is one to one with port and frame set, and its source.
pub(crate) type Key = (u32, Address);

#[derive(Clone, Copy, Debug, PartialEq, Eq)]
pub struct Session {
    pub level: u8,
    pub side: Side,
    /// The tag of the first Activate; none in an untagged set.
    pub tag: Option<[u8; 4]>,
    /// 0 once it is closed.
    pub ms_left: u32,
    /// The code of the notice that is owed; none while it is open.
    pub notice: Option<u8>,
}

impl Session {
    pub(crate) fn is_open(&self) -> bool {
        self.notice.is_none()
    }

    /// Closes it with a notice of that code.
    pub(crate) fn close(&mut self, code: u8) {
        self.ms_left = 0;
        self.notice = Some(code);
    }
}
