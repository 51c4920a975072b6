//! Walking TLVs.

use crate::Unit;

pub(crate) const END: u8 = 0;
pub(crate) const LATCHING: u8 = 37;
const TIMER: u8 = 1;

listed! {
    /// Why a request is malformed.
    Malformed {
        /// A unicast request names another port than its destination.
        UnlikeAddress,
        /// Version 0 with an offset other than 8.
        FirstVersionOffset,
        /// Another version with an offset below 8.
        LaterVersionOffset,
        NoEnd,
        CutLength,
        ValuePastPdu,
        /// Type 37 with length 0.
        EmptyLatching,
        TimerLength,
        SecondTimer,
        /// An Activate without a timer.
        NoTimer,
    }
}

/// What stands first in a list, and the octets behind it.
#[derive(Clone, Copy, Debug)]
pub(crate) enum First<'a> {
    End(&'a [u8]),
    Tlv(&'a [u8], &'a [u8]),
}

impl Unit {
    /// Walks the list up to its End, or to what is bad; the octets behind End.
    pub(crate) fn walk<'a>(&self, list: &'a [u8], tlvs: &mut Vec<&'a [u8]>) -> Result<&'a [u8], Malformed> {
        let mut rest = list;
        loop {
            match (self.rules.reading.first_tlv)(rest)? {
                First::End(behind) => return Ok(behind),
                First::Tlv(tlv, behind) => {
                    (self.rules.reading.bad_tlv)(tlv, tlvs).map_or(Ok(()), Err)?;
                    tlvs.push(tlv);
                    rest = behind;
                }
            }
        }
    }
}

pub(crate) fn first_tlv(list: &[u8]) -> Result<First<'_>, Malformed> {
    split_first(list, u16::from_be_bytes)
}

/// TLV-2, TLV-3.
pub(crate) fn split_first(list: &[u8], length: fn([u8; 2]) -> u16) -> Result<First<'_>, Malformed> {
    match *list {
        [] => Err(Malformed::NoEnd),
        [END, ref behind @ ..] => Ok(First::End(behind)),
        [_, first, second, ref behind @ ..] => {
            let length = usize::from(length([first, second]));
            let behind = behind.get(length..).ok_or(Malformed::ValuePastPdu)?;
            Ok(First::Tlv(&list[..3 + length], behind))
        }
        _ => Err(Malformed::CutLength),
    }
}

/// TLV-6 to TLV-9.
pub(crate) fn bad_tlv(tlv: &[u8], before: &[&[u8]]) -> Option<Malformed> {
    match *tlv {
        [LATCHING, _, _] => Some(Malformed::EmptyLatching),
        [LATCHING, _, _, TIMER, ref seconds @ ..] if seconds.len() != 4 => Some(Malformed::TimerLength),
        [LATCHING, _, _, TIMER, ..] if before.iter().any(|tlv| is_timer(tlv)) => Some(Malformed::SecondTimer),
        _ => None,
    }
}

pub(crate) fn is_timer(tlv: &[u8]) -> bool {
    matches!(tlv, [LATCHING, _, _, TIMER, ..])
}

/// TLV-7: the seconds behind the subtype.
pub(crate) fn seconds_of(timer: &[u8]) -> u32 {
    u32::from_be_bytes([timer[4], timer[5], timer[6], timer[7]])
}
