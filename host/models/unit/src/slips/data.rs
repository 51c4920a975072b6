//! Data.

use super::{slip, Slip};
use crate::data::{level, looped, passes};
use crate::frame::nothing;
use crate::Answer;

pub(super) const SLIPS: [Slip; 8] = [
    slip("SoamAboveForwarded", "SOAM above the session's level is forwarded.", |rules| rules.data.passes = |_, _| true),
    slip("SoamAtLevelLooped", "SOAM of the session's level is looped.", |rules| {
        rules.data.passes = |pdu, session_level| level(pdu) < session_level;
    }),
    slip("EmptyPduLooped", "SOAM with an empty PDU is looped.", |rules| {
        rules.data.passes = |pdu, session_level| !pdu.is_empty() && passes(pdu, session_level);
    }),
    slip("OtherOpcodeLooped", "SOAM with an opcode other than 56 and 57 is looped.", |rules| {
        rules.data.passes = |pdu, session_level| matches!(pdu.get(1), Some(56 | 57)) && passes(pdu, session_level);
    }),
    slip("GroupSwapped", "A group destination is swapped like any other.", |rules| rules.data.is_group = |_| false),
    slip("OnlyBroadcastIsGroup", "Only the broadcast address is a group's.", |rules| {
        rules.data.is_group = |address| address == [0xFF; 6];
    }),
    slip("OtherSideForwarded", "Data from the other side is forwarded.", |rules| {
        rules.data.from_other_side = |_, _| nothing(Answer::Forward);
    }),
    slip("OtherSideLooped", "Data from the other side is looped.", |rules| rules.data.from_other_side = looped),
];
