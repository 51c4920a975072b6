//! What a plan names: ports, flows and maintenance points.

use std::collections::BTreeMap;

use crate::Address;

#[derive(Clone, Copy, Debug, PartialEq, Eq)]
pub enum PortKind {
    Uni,
    Enni,
}

/// The kind of a flow's frame set: untagged, C-tagged, S-tagged.
#[derive(Clone, Copy, Debug, PartialEq, Eq, PartialOrd, Ord)]
pub enum SetKind {
    U,
    C,
    S,
}

#[derive(Clone, Copy, Debug, PartialEq, Eq)]
pub enum MpKind {
    Up,
    Down,
    Mip,
}

#[derive(Clone, Copy, Debug, PartialEq, Eq)]
pub enum Side {
    External,
    Cen,
}

#[derive(Clone, Copy, Debug, PartialEq, Eq)]
pub struct Port {
    pub kind: PortKind,
    pub address: Address,
}

#[derive(Clone, Debug, PartialEq, Eq)]
pub struct Flow {
    pub port: u32,
    pub kind: SetKind,
    pub vid: u16,
    /// The MPs by their level.
    pub mps: BTreeMap<u8, MpKind>,
}

/// Ports and flows by their numbers. The order of the plan's lines is no part of it.
#[derive(Clone, Debug, Default, PartialEq, Eq)]
pub struct Plan {
    pub ports: BTreeMap<u32, Port>,
    pub flows: BTreeMap<u32, Flow>,
}

impl Side {
    pub fn number(self) -> u8 {
        match self {
            Side::External => 0,
            Side::Cen => 1,
        }
    }

    pub fn of(number: u32) -> Option<Side> {
        match number {
            0 => Some(Side::External),
            1 => Some(Side::Cen),
            _ => None,
        }
    }

    pub fn other(self) -> Side {
        match self {
            Side::External => Side::Cen,
            Side::Cen => Side::External,
        }
    }
}

impl MpKind {
    pub fn faces(self, side: Side) -> bool {
        match self {
            MpKind::Up => side == Side::Cen,
            MpKind::Down => side == Side::External,
            MpKind::Mip => true,
        }
    }
}

impl PortKind {
    pub fn can_have(self, kind: SetKind) -> bool {
        match kind {
            SetKind::U => true,
            SetKind::C => self == PortKind::Uni,
            SetKind::S => self == PortKind::Enni,
        }
    }
}

impl Plan {
    /// The number of the flow with that frame set.
    pub fn flow_of(&self, port: u32, kind: SetKind, vid: u16) -> Option<u32> {
        let is_it = |flow: &Flow| flow.port == port && flow.kind == kind && flow.vid == vid;
        self.flows.iter().find(|(_, flow)| is_it(flow)).map(|(&number, _)| number)
    }

    pub fn mp_count(&self) -> usize {
        self.flows.values().map(|flow| flow.mps.len()).sum()
    }
}
