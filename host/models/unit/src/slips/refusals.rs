//! Refusals: a number cut to eight bits, a wrong bound, a wrong order.

use super::{slip, Slip};
use crate::frame::frame;
use crate::management::{allow, prohibit};
use crate::refusal::Call;
use crate::Unit;

pub(super) const SLIPS: [Slip; 15] = [
    slip("PortTruncated", "A port's number counts modulo 256.", |rules| {
        rules.calls.frame = |unit, port, side, octets, out_len| frame(unit, port & 0xFF, side, octets, out_len);
    }),
    slip("SideTruncated", "A side's number counts modulo 256.", |rules| {
        rules.calls.frame = |unit, port, side, octets, out_len| frame(unit, port, side & 0xFF, octets, out_len);
    }),
    slip("FlowTruncated", "A flow's number counts modulo 256.", |rules| {
        rules.calls.allow = |unit, flow| allow(unit, flow & 0xFF);
        rules.calls.prohibit = |unit, flow| prohibit(unit, flow & 0xFF);
    }),
    slip("ShortestFrameRefused", "A frame of 14 octets is refused.", |rules| rules.refusals.least_frame = 15),
    slip("LongestFrameRefused", "A frame of 2,000 octets is refused.", |rules| rules.refusals.most_frame = 1_999),
    slip("SmallOutputTaken", "An output of 2,000 octets is enough.", |rules| rules.refusals.least_output = 2_000),
    slip("LengthBeforePort", "Refusal 2 comes before 1.", |rules| rules.refusals.of_frame = &[2, 1, 3, 4]),
    slip("OutputBeforeLength", "Refusal 3 comes before 2.", |rules| rules.refusals.of_frame = &[1, 3, 2, 4]),
    slip("NoticeBeforeOutput", "Refusal 4 comes before 3.", |rules| rules.refusals.of_frame = &[1, 2, 4, 3]),
    slip("NoNoticeBeforeOutput", "Refusal 7 comes before 3.", |rules| rules.refusals.of_notice = &[7, 3]),
    slip("StepBeforeNotice", "Refusal 5 comes before 4.", |rules| rules.refusals.of_tick = &[5, 4]),
    slip("FlowBeforeNotice", "Refusal 6 comes before 4.", |rules| rules.refusals.of_allow_or_prohibit = &[6, 4]),
    slip("NoSetServedWithNotice", "A frame without a set is forwarded though a notice is due.", |rules| {
        rules.refusals.is_owed = |unit, call| unit.is_notice_due() && has_set(unit, call);
    }),
    slip("TickWithNoticeTaken", "A tick is served though a notice is due.", |rules| rules.refusals.of_tick = &[5]),
    slip("RestartWithNoticeRefused", "A restart is refused when a notice is due.", |rules| {
        rules.refusals.of_restart = &[4];
    }),
];

/// Whether it is no frame, or one that has a set.
fn has_set(unit: &Unit, call: Call) -> bool {
    let Call::Frame { port, side, frame, .. } = call else {
        return true;
    };
    unit.place(port, side).is_some_and(|(port, side)| unit.arrival(port, side, frame).is_ok())
}
