//! Whether a frame is for an MP.

use crate::arrival::Arrival;
use crate::{MpKind, Side, Unit};

const REQUEST: u8 = 57;
/// The class 2 address of level 0; the last octet of the others is this plus their level.
const CLASS_TWO: [u8; 6] = [0x01, 0x80, 0xC2, 0x00, 0x00, 0x38];

listed! {
    /// Why a frame is data.
    NotForMp {
        NotSoam,
        NoOpcode,
        OtherOpcode,
        NoMpAtLevel,
        MpFacesAway,
        OtherDestination,
        MulticastOtherLevel,
        MulticastShort,
        MulticastWrongType,
    }
}

/// The MP that a frame is for.
#[derive(Clone, Copy, Debug)]
pub(crate) struct Target<'a> {
    pub(crate) level: u8,
    pub(crate) mp: MpKind,
    pub(crate) is_multicast: bool,
    pub(crate) pdu: &'a [u8],
}

#[derive(Clone, Debug)]
pub(crate) struct TargetRules {
    pub(crate) find: for<'a> fn(&Unit, &Arrival<'a>) -> Result<Target<'a>, NotForMp>,
    /// MP-2: the opcodes of a request.
    pub(crate) opcodes: &'static [u8],
    /// MP-3.
    pub(crate) faces: fn(MpKind, Side) -> bool,
    /// MP-4: whether it is a unicast request.
    pub(crate) is_own: fn(&Unit, &Arrival) -> bool,
    /// Why a PDU of that level to another destination is for no MP.
    pub(crate) not_multicast: fn(&Arrival, u8, &[u8]) -> Option<NotForMp>,
}

impl Default for TargetRules {
    fn default() -> TargetRules {
        TargetRules {
            find,
            opcodes: &[REQUEST],
            faces: MpKind::faces,
            is_own: |_, arrival| arrival.destination == arrival.port.address,
            not_multicast,
        }
    }
}

pub(crate) fn find<'a>(unit: &Unit, arrival: &Arrival<'a>) -> Result<Target<'a>, NotForMp> {
    let rules = &unit.rules.targets;
    let pdu = arrival.pdu.ok_or(NotForMp::NotSoam)?;
    let &[first, opcode, ..] = pdu else {
        return Err(NotForMp::NoOpcode);
    };
    if !rules.opcodes.contains(&opcode) {
        return Err(NotForMp::OtherOpcode);
    }
    let level = first >> 5;
    let mp = *unit.plan.flows[&arrival.flow].mps.get(&level).ok_or(NotForMp::NoMpAtLevel)?;
    if !(rules.faces)(mp, arrival.side) {
        return Err(NotForMp::MpFacesAway);
    }
    let is_multicast = !(rules.is_own)(unit, arrival);
    let reason = is_multicast.then(|| (rules.not_multicast)(arrival, level, pdu)).flatten();
    reason.map_or(Ok(Target { level, mp, is_multicast, pdu }), Err)
}

/// MP-4: a multicast request has the address of its level, message type 3 and 12 octets.
pub(crate) fn not_multicast(arrival: &Arrival, level: u8, pdu: &[u8]) -> Option<NotForMp> {
    let last = arrival.destination[5];
    if arrival.destination[..5] != CLASS_TWO[..5] || !(0x38..=0x3F).contains(&last) {
        return Some(NotForMp::OtherDestination);
    }
    if last != CLASS_TWO[5] + level {
        return Some(NotForMp::MulticastOtherLevel);
    }
    if pdu.len() < 12 {
        return Some(NotForMp::MulticastShort);
    }
    (pdu[4] != 3).then_some(NotForMp::MulticastWrongType)
}
