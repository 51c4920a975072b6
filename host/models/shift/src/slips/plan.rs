//! The plan file.

use model::PlanFault;

use super::{slip, Slip};
use crate::lines::Numbered;
use crate::plan::said;

const MOST_TEXT: usize = 8_192;

pub(super) const SLIPS: [Slip; 18] = [
    slip("NameCarriageReturnTrimmed", "A CR at the end is no part of the name.", |rules| {
        rules.plan.name = |line| line.strip_suffix(b"\r").unwrap_or(line);
    }),
    slip("NameBlanksTrimmed", "Blanks around the name are no part of it.", |rules| {
        rules.plan.name = |line| line.trim_ascii();
    }),
    slip("NameEndsAtTab", "The name is the first field of its line.", |rules| {
        rules.plan.name = |line| up_to(line, b'\t');
    }),
    slip("NameEndsAtBlank", "The name is the first word of its line.", |rules| {
        rules.plan.name = |line| up_to(line, b' ');
    }),
    slip("NameEndsAtNul", "The name is read up to its first NUL.", |rules| rules.plan.name = |line| up_to(line, 0)),
    slip("ShortNameOnly", "A name of over 255 octets can't be opened.", |rules| {
        rules.plan.name = |line| if line.len() > 255 { b"" } else { line };
    }),
    slip("UnopenedSilent", "A plan that can't be opened prints nothing.", |rules| rules.plan.unopened = None),
    slip("UnopenedUnreadable", "A plan that can't be opened counts as an unreadable line.", |rules| {
        rules.plan.unopened = Some(b"\n");
    }),
    slip("FaultyPlanGoesOn", "Behind a faulty plan the lines are refused with 8.", |rules| {
        rules.plan.fault = |fault, lines| [vec![said(fault)], lines.iter().map(refused).collect()].concat();
    }),
    slip("FaultyPlanSilent", "A faulty plan prints nothing.", |rules| rules.plan.fault = |_, _| Vec::new()),
    slip("FaultReasonFirst", "The reason of a fault stands before its line.", |rules| {
        rules.plan.fault = |fault, _| in_places(&["plan", &fault.reason.to_string(), &fault.line.to_string()]);
    }),
    slip("FaultAsRefusal", "A fault is printed as a refusal.", |rules| {
        rules.plan.fault = |fault, _| in_places(&["plan", "refused", &fault.reason.to_string(), "-"]);
    }),
    slip("FaultLinesFromZero", "The plan's first line has number 0.", |rules| {
        rules.plan.fault = |fault, _| vec![said(&PlanFault { line: fault.line.saturating_sub(1), ..*fault })];
    }),
    slip("LongPlanCut", "The first 8,192 octets of the file are the plan.", |rules| {
        rules.plan.text = |mut text| {
            text.truncate(MOST_TEXT);
            text
        };
    }),
    slip("LongPlanEmpty", "A file of over 8,192 octets counts as empty.", |rules| {
        rules.plan.text = |text| if text.len() > MOST_TEXT { Vec::new() } else { text };
    }),
    slip("LongestPlanTooLong", "A file of 8,192 octets is too long.", |rules| {
        rules.plan.text = |text| if text.len() == MOST_TEXT { vec![0; MOST_TEXT + 1] } else { text };
    }),
    slip("PlanLineEndAdded", "The plan's last line need not be ended by LF.", |rules| {
        rules.plan.text =
            |text| if text.ends_with(b"\n") || text.is_empty() { text } else { [text, vec![b'\n']].concat() };
    }),
    slip("PlanCarriageReturnsTaken", "The plan's lines can be ended by CR and LF.", |rules| {
        rules.plan.text = |text| text.into_iter().filter(|&octet| octet != b'\r').collect();
    }),
];

fn up_to(line: &[u8], end: u8) -> &[u8] {
    line.split(|&octet| octet == end).next().unwrap_or(line)
}

fn refused(line: &Numbered) -> Vec<u8> {
    let word = String::from_utf8_lossy(up_to(line.1, b'\t'));
    format!("{}\t{word}\trefused\t8\t-\n", line.0).into_bytes()
}

fn in_places(places: &[&str]) -> Vec<Vec<u8>> {
    vec![format!("{}\n", places.join("\t")).into_bytes()]
}
