//! When the host is told no, but for number 8.

use crate::{Answer, Mark, Side, Unit};

/// A call, as far as refusals look at it.
#[derive(Clone, Copy)]
pub(crate) enum Call<'a> {
    Frame { port: u32, side: u32, frame: &'a [u8], out_len: usize },
    Tick { clock: u32 },
    AllowOrProhibit { flow: u32 },
    Notice { out_len: usize },
    Restart,
}

/// CALL-8: the checks, and which calls make them in which order.
#[derive(Clone, Debug)]
pub(crate) struct RefusalRules {
    pub(crate) of_frame: &'static [u8],
    pub(crate) of_tick: &'static [u8],
    pub(crate) of_allow_or_prohibit: &'static [u8],
    pub(crate) of_notice: &'static [u8],
    pub(crate) of_restart: &'static [u8],
    /// REFUSAL-2: the lengths that a frame may have.
    pub(crate) least_frame: usize,
    pub(crate) most_frame: usize,
    /// REFUSAL-3: how long the output is at least.
    pub(crate) least_output: usize,
    /// REFUSAL-4: whether a notice is to be taken first.
    pub(crate) is_owed: fn(&Unit, Call) -> bool,
    /// REFUSAL-5: the first step that is too large.
    pub(crate) too_far: u32,
}

impl Default for RefusalRules {
    fn default() -> RefusalRules {
        RefusalRules {
            of_frame: &[1, 2, 3, 4],
            of_tick: &[4, 5],
            of_allow_or_prohibit: &[4, 6],
            of_notice: &[3, 7],
            of_restart: &[],
            least_frame: 14,
            most_frame: 2_000,
            least_output: 2_008,
            is_owed: |unit, _| unit.is_notice_due(),
            too_far: 2_147_483_648,
        }
    }
}

impl Unit {
    /// The first refusal that holds.
    pub(crate) fn refusal(&mut self, call: Call) -> Option<Answer> {
        let rules = &self.rules.refusals;
        let numbers = match call {
            Call::Frame { .. } => rules.of_frame,
            Call::Tick { .. } => rules.of_tick,
            Call::AllowOrProhibit { .. } => rules.of_allow_or_prohibit,
            Call::Notice { .. } => rules.of_notice,
            Call::Restart => rules.of_restart,
        };
        let number = *numbers.iter().find(|&&number| self.holds(number, call))?;
        self.mark(Mark::Refusal(number));
        Some(self.answer(Answer::Refused(number)))
    }

    /// REFUSAL-1 to REFUSAL-8.
    fn holds(&self, number: u8, call: Call) -> bool {
        let rules = &self.rules.refusals;
        match (number, call) {
            (1, Call::Frame { port, side, .. }) => self.place(port, side).is_none(),
            (2, Call::Frame { frame, .. }) => !self.is_length(frame.len()),
            (3, Call::Frame { out_len, .. } | Call::Notice { out_len }) => out_len < rules.least_output,
            (4, _) => (rules.is_owed)(self, call),
            (5, Call::Tick { clock }) => (self.rules.time.elapsed)(self.clock, clock) >= rules.too_far,
            (6, Call::AllowOrProhibit { flow }) => !self.plan.flows.contains_key(&flow),
            (7, Call::Notice { .. }) => !self.is_notice_due(),
            _ => false,
        }
    }

    /// The port and the side, if the plan has that port and the number is a side's.
    pub(crate) fn place(&self, port: u32, side: u32) -> Option<(u32, Side)> {
        let side = Side::of(side).filter(|_| self.plan.ports.contains_key(&port))?;
        Some((port, side))
    }

    /// Whether a frame can have that many octets.
    pub(crate) fn is_length(&self, octets: usize) -> bool {
        (self.rules.refusals.least_frame..=self.rules.refusals.most_frame).contains(&octets)
    }
}
