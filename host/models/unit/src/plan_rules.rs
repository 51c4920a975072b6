//! The rules of the plan.

use crate::plan_fields::{decimal, hex};
use crate::plan_read::{lines, Line};
use crate::{Flaw, Flow, SetKind};

#[derive(Clone, Debug)]
pub(crate) struct PlanRules {
    /// PLAN-2.
    pub(crate) most_octets: usize,
    /// PLAN-16: the lines, by their numbers.
    pub(crate) lines: fn(&[u8]) -> Vec<Line<'_>>,
    /// PLAN-1: what stands before a line's LF.
    pub(crate) ended: fn(&[u8]) -> Option<&[u8]>,
    /// PLAN-6.
    pub(crate) number: fn(&[u8]) -> Option<u64>,
    /// PLAN-3: a digit of an address.
    pub(crate) hex: fn(u8) -> Option<u8>,
    /// PLAN-16: what makes a record faulty: the first of reasons 2, 3, 4 and 7 that fits.
    pub(crate) flaws: Vec<Flaw>,
    /// PLAN-7.
    pub(crate) last_vid: u64,
    /// PLAN-12: whether a flow has this port, kind and VID.
    pub(crate) is_same_set: fn(&Flow, u64, SetKind, u64) -> bool,
    /// PLAN-14.
    pub(crate) most_mps: usize,
    /// PLAN-15.
    pub(crate) least_ports: usize,
}

impl Default for PlanRules {
    fn default() -> PlanRules {
        PlanRules {
            most_octets: 8_192,
            lines,
            ended: |line| line.strip_suffix(b"\n"),
            number: decimal,
            hex,
            flaws: Flaw::ALL.iter().copied().filter(|flaw| [2, 3, 4, 7].contains(&flaw.reason())).collect(),
            last_vid: 4_094,
            is_same_set: |flow, port, kind, vid| {
                (u64::from(flow.port), flow.kind, u64::from(flow.vid)) == (port, kind, vid)
            },
            most_mps: 32,
            least_ports: 1,
        }
    }
}
