//! The records of a plan as they are read, before any rule but "readable" was looked at.

use crate::{Address, MpKind, PortKind, SetKind};

/// Numbers are as large as the line says, up to the largest u64, which stands for all above it.
#[derive(Clone, Copy, Debug)]
pub(crate) enum Record {
    Port { number: u64, kind: PortKind, address: Address },
    Flow { number: u64, port: u64, kind: SetKind, vid: u64 },
    Mp { flow: u64, kind: MpKind, level: u64 },
}
