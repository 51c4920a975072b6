//! Reading the plan.

use super::{slip, Slip};
use crate::plan_fields::{decimal, digits, hex};
use crate::plan_read::lines;
use crate::plan_rules::PlanRules;
use crate::{Flaw, Unit};

pub(super) const SLIPS: [Slip; 23] = [
    slip("LinesFromZero", "The first line has number 0.", |rules| {
        rules.plan.lines = |text| (0..).zip(lines(text)).map(|(number, (_, line))| (number, line)).collect();
    }),
    slip("LongestPlanRefused", "A text of 8,192 octets is too long.", |rules| rules.plan.most_octets = 8_191),
    slip("NoPortTaken", "A plan needs no port.", |rules| rules.plan.least_ports = 0),
    slip("LastLineEndOptional", "The last line need not be ended by LF.", |rules| {
        rules.plan.ended = |line| Some(line.strip_suffix(b"\n").unwrap_or(line));
    }),
    slip("EmptyLineSkipped", "An empty line is no fault.", |rules| {
        rules.plan.lines = |text| lines(text).into_iter().filter(|&(_, line)| line != b"\n").collect();
    }),
    slip("CarriageReturnTaken", "A line can be ended by CR and LF.", |rules| {
        rules.plan.ended = |line| line.strip_suffix(b"\r\n").or(line.strip_suffix(b"\n"));
    }),
    slip("LeadingZeroTaken", "A number can have leading zeros.", |rules| rules.plan.number = digits),
    slip("LongNumberUnreadable", "A number of ten digits is unreadable, not out of range.", |rules| {
        rules.plan.number = |field| decimal(field).filter(|_| field.len() <= 9);
    }),
    slip("UpperHexTaken", "Hex digits can be in upper case.", |rules| {
        rules.plan.hex = |digit| hex(digit.to_ascii_lowercase());
    }),
    slip(
        "ReferredNumberUnnamed",
        "A port above 8 or a flow above 32 is unnamed where it is referred to: 3, not 2.",
        |rules| {
            overlook(&mut rules.plan, &[Flaw::ReferredPort, Flaw::ReferredFlow]);
        },
    ),
    slip("GroupAddressTaken", "A port's address can be a group's.", |rules| {
        overlook(&mut rules.plan, &[Flaw::GroupAddress]);
    }),
    slip("ZeroAddressTaken", "A port's address can be zero.", |rules| overlook(&mut rules.plan, &[Flaw::ZeroAddress])),
    slip("LastVidTaken", "A VID can be 4095.", |rules| rules.plan.last_vid = 4_095),
    slip("AnyKindTaken", "A flow's kind need not fit its port's.", |rules| {
        overlook(&mut rules.plan, &[Flaw::WrongKind])
    }),
    slip("SameAddressTaken", "Two ports can have one address.", |rules| {
        overlook(&mut rules.plan, &[Flaw::SameAddress])
    }),
    slip("SameSetTaken", "Two flows of one port can have one frame set.", |rules| {
        overlook(&mut rules.plan, &[Flaw::SameSet]);
    }),
    slip("SameVidOnOtherPortRefused", "Flows of two ports can't have one kind and VID.", |rules| {
        rules.plan.is_same_set = |flow, _, kind, vid| flow.kind == kind && u64::from(flow.vid) == vid;
    }),
    slip("ThirtyThirdMpTaken", "A 33rd MP is taken.", |rules| rules.plan.most_mps = 33),
    slip("RepeatBeforeRange", "Reason 4 comes before reasons 2 and 3.", |rules| reorder(&mut rules.plan, [4, 3, 2, 7])),
    slip("RepeatBeforeUnnamed", "Reason 4 comes before reason 3.", |rules| reorder(&mut rules.plan, [2, 4, 3, 7])),
    slip("MpCountBeforeRepeat", "Reason 7 comes before reason 4.", |rules| reorder(&mut rules.plan, [2, 3, 7, 4])),
    slip("FlowsStartAllowed", "Flows start allowed.", |rules| {
        rules.calls.start = |plan, clock| {
            let mut unit = Unit::start(plan, clock);
            unit.allowed = unit.plan.flows.keys().copied().collect();
            unit
        };
    }),
    slip("ClockStartsAtZero", "The clock starts at 0.", |rules| rules.calls.start = |plan, _| Unit::start(plan, 0)),
];

/// Takes these for no faults.
fn overlook(rules: &mut PlanRules, flaws: &[Flaw]) {
    rules.flaws.retain(|flaw| !flaws.contains(flaw));
}

/// Looks for the reasons in this order.
fn reorder(rules: &mut PlanRules, reasons: [u8; 4]) {
    rules.flaws.sort_by_key(|flaw| reasons.iter().position(|&reason| reason == flaw.reason()));
}
