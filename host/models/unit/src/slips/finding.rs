//! Finding the machine: what is left out of its key, or cut from it, and what is taken for a set.

use super::{slip, Slip};
use crate::address::{is_group, pair_at};
use crate::session::Key;
use crate::set::{is_tag, pdu, set, NoSet, Set, UNTAGGED};
use crate::{Address, Flow, PortKind, SetKind, Unit};

pub(super) const SLIPS: [Slip; 10] = [
    slip("VlanLeftOut", "A machine is that of port and source alone.", |rules| {
        rules.sets.key = |unit, flow, source| taken_for(unit, flow, source, |one, other| one.port == other.port);
    }),
    slip("PortLeftOut", "A machine is that of set and source alone.", |rules| {
        rules.sets.key = |unit, flow, source| {
            taken_for(unit, flow, source, |one, other| (one.kind, one.vid) == (other.kind, other.vid))
        };
    }),
    slip("SourceCutShort", "The first octet of a source is left out.", |rules| {
        rules.sets.key = |_, flow, [_, rest @ ..]| {
            let [b, c, d, e, f] = rest;
            (flow, [0, b, c, d, e, f])
        };
    }),
    slip("WrongTagIsUntagged", "A frame with the wrong tag belongs to `u`.", |rules| {
        rules.sets.set = |port, frame| instead(port, frame, NoSet::WrongTag, UNTAGGED);
    }),
    slip("CutTagIsUntagged", "A frame with a tag cut short belongs to `u`.", |rules| {
        rules.sets.set = |port, frame| instead(port, frame, NoSet::CutTag, UNTAGGED);
    }),
    slip("PriorityTagIsUntagged", "A frame with VID 0 belongs to `u`.", |rules| {
        rules.sets.set = |port, frame| instead(port, frame, NoSet::VidZero, (SetKind::U, 0, 4));
    }),
    slip("PriorityInVid", "The VID has the priority bits too.", |rules| {
        rules.sets.set = |port, frame| match set(port, frame) {
            Ok((kind, _, 4)) => Ok((kind, pair_at(frame, 14), 4)),
            other => other,
        };
    }),
    slip("GroupSourceServed", "A group source address has a set.", |rules| rules.sets.has_set = |_| true),
    slip("ZeroSourceForwarded", "A zero source address has no set.", |rules| {
        rules.sets.has_set = |source| !is_group(source) && source != [0; 6];
    }),
    slip("OamUnderSecondTagTaken", "A frame is SOAM under a second tag too.", |rules| rules.sets.pdu = under_tags),
];

/// The machine of another session of that source whose flow stands so to this one; else its own.
fn taken_for(unit: &Unit, flow: u32, source: Address, stands_so: fn(&Flow, &Flow) -> bool) -> Key {
    let flows = &unit.plan.flows;
    let is_it = |other: &Key| other.1 == source && stands_so(&flows[&other.0], &flows[&flow]);
    unit.sessions.keys().copied().find(is_it).unwrap_or((flow, source))
}

/// This set where there should be none for that reason.
fn instead(port: PortKind, frame: &[u8], reason: NoSet, other: Set) -> Result<Set, NoSet> {
    set(port, frame).or_else(|found| if found == reason { Ok(other) } else { Err(found) })
}

fn under_tags(after_tag: &[u8]) -> Option<&[u8]> {
    match is_tag(pair_at(after_tag, 0)) && after_tag.len() >= 6 {
        true => under_tags(&after_tag[4..]),
        false => pdu(after_tag),
    }
}
