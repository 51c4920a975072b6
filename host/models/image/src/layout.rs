//! Where things stand in the image.

use std::ops::Range;

use crate::Fault;

pub const IMAGE_LENGTH: usize = 4096;

pub(crate) const CLOCK: Range<usize> = 0..4;
/// For flow 1 to 32 in turn, whether it is allowed.
pub(crate) const ALLOWED: Range<usize> = 32..64;
/// For flow 1 to 32 in turn, the place of its row.
pub const PLACES: Range<usize> = 64..96;
pub const PORTS: Table = Table { start: 128, rows: 8, width: 16 };
pub const FLOWS: Table = Table { start: 256, rows: 32, width: 32 };
pub const SESSIONS: Table = Table { start: 1536, rows: 16, width: 32 };
/// The free octets behind the sessions.
pub const TAIL: Range<usize> = 2048..IMAGE_LENGTH;

#[derive(Clone, Copy, Debug)]
pub struct Table {
    pub start: usize,
    pub rows: usize,
    pub width: usize,
}

impl Table {
    /// The octets of the row at that place, counted from 0.
    pub fn row(self, place: usize) -> Range<usize> {
        let start = self.start + place * self.width;
        start..start + self.width
    }

    /// The octets of all rows.
    pub fn span(self) -> Range<usize> {
        self.start..self.start + self.rows * self.width
    }

    /// Where in its row the octet stands, if it is in the table.
    fn column(self, index: usize) -> Option<usize> {
        self.span().contains(&index).then(|| (index - self.start) % self.width)
    }
}

/// The octet that belongs to that flow in one of the parts with an octet a flow.
pub(crate) fn of_flow(part: Range<usize>, flow: u8) -> usize {
    part.start + usize::from(flow) - 1
}

/// What is wrong when the octet at that index differs from the one in the image of what the octets say.
pub(crate) fn fault_at(index: usize) -> Fault {
    if ALLOWED.contains(&index) {
        Fault::AllowedOctet
    } else if PLACES.contains(&index) {
        Fault::WrongPlace
    } else if has_meaning_in_row(index) {
        Fault::WrongRow
    } else {
        Fault::UnusedOctet
    }
}

fn has_meaning_in_row(index: usize) -> bool {
    matches!(PORTS.column(index), Some(0..=7))
        || matches!(FLOWS.column(index), Some(1 | 4..=15))
        || matches!(SESSIONS.column(index), Some(0..=19))
}
