//! The records of the plan.

use crate::{Address, Side};

#[derive(Clone, Copy, Debug, PartialEq, Eq)]
pub enum PortKind {
    Uni = 1,
    Enni = 2,
}

/// The kind of a flow's frame set: untagged, C-tagged or S-tagged.
#[derive(Clone, Copy, Debug, PartialEq, Eq, PartialOrd, Ord)]
pub enum SetKind {
    U = 1,
    C = 2,
    S = 3,
}

/// A maintenance point, by the way it faces.
#[derive(Clone, Copy, Debug, PartialEq, Eq)]
pub enum Mp {
    Up = 1,
    Down = 2,
    Mip = 3,
}

#[derive(Clone, Copy, Debug, PartialEq, Eq)]
pub struct Port {
    pub number: u8,
    pub kind: PortKind,
    pub address: Address,
}

#[derive(Clone, Copy, Debug, PartialEq, Eq)]
pub struct Flow {
    pub number: u8,
    pub port: u8,
    pub kind: SetKind,
    pub vid: u16,
    /// The MPs at level 0 to 7 in turn.
    pub mps: [Option<Mp>; 8],
}

impl PortKind {
    /// Whether a port of this kind can have a flow with frame sets of that kind.
    pub fn can_have(self, kind: SetKind) -> bool {
        match kind {
            SetKind::U => true,
            SetKind::C => self == PortKind::Uni,
            SetKind::S => self == PortKind::Enni,
        }
    }
}

impl SetKind {
    /// The first two octets of the set's tag, where it has one.
    pub fn tag_type(self) -> Option<u16> {
        match self {
            SetKind::U => None,
            SetKind::C => Some(0x8100),
            SetKind::S => Some(0x88A8),
        }
    }
}

impl Mp {
    pub fn faces(self, side: Side) -> bool {
        match self {
            Mp::Up => side == Side::Cen,
            Mp::Down => side == Side::External,
            Mp::Mip => true,
        }
    }
}

impl Flow {
    /// The frame set with its port; it tells the flow from all others, and places its row.
    pub fn set(&self) -> (u8, SetKind, u16) {
        (self.port, self.kind, self.vid)
    }

    pub fn mp(&self, level: u8) -> Option<Mp> {
        self.mps.get(usize::from(level)).copied().flatten()
    }

    pub fn mp_count(&self) -> usize {
        self.mps.iter().flatten().count()
    }

    /// The tag octets of the flow's set as one number, with these four priority and DEI bits.
    pub fn tag(&self, priority: u8) -> Option<u32> {
        let upper_bits = u32::from(priority & 0xF) << 12;
        self.kind.tag_type().map(|tag_type| u32::from(tag_type) << 16 | upper_bits | u32::from(self.vid))
    }

    /// Whether the tag is one that frames of the flow's set have: its type and VID count, its upper bits do not.
    pub fn has_tag(&self, tag: Option<u32>) -> bool {
        let without_upper_bits = tag.map(|number| number & 0xFFFF_0FFF);
        without_upper_bits == self.tag(0)
    }
}
