//! The calls. Making reads the plan; what the others do stands in a file for each.

use crate::arrival::Written;
use crate::frame::frame;
use crate::management::{allow, prohibit, restart};
use crate::notice::notice;
use crate::plan_read::PlanReader;
use crate::time::tick;
use crate::{Answer, Plan, PlanFault, Rules, Unit};

#[derive(Clone, Debug)]
pub(crate) struct Calls {
    /// PLAN-31: a new unit.
    pub(crate) start: fn(Plan, u32) -> Unit,
    /// With the port, the side, the frame and the output's length.
    pub(crate) frame: fn(&mut Unit, u32, u32, &[u8], usize) -> Written,
    pub(crate) tick: fn(&mut Unit, u32) -> Answer,
    pub(crate) allow: fn(&mut Unit, u32) -> Answer,
    pub(crate) prohibit: fn(&mut Unit, u32) -> Answer,
    pub(crate) notice: fn(&mut Unit, usize) -> Written,
    pub(crate) restart: fn(&mut Unit, u32) -> Answer,
}

impl Default for Calls {
    fn default() -> Calls {
        Calls { start: Unit::start, frame, tick, allow, prohibit, notice, restart }
    }
}

impl Unit {
    pub fn make(text: &[u8], clock: u32) -> Result<Unit, PlanFault> {
        Unit::make_by(Rules::default(), text, clock)
    }

    /// A unit that goes by these rules.
    pub fn make_by(rules: Rules, text: &[u8], clock: u32) -> Result<Unit, PlanFault> {
        let plan = PlanReader::read(&rules.plan, text)?;
        let mut unit = (rules.calls.start)(plan, clock).going_by(rules);
        unit.done();
        Ok(unit)
    }

    /// The answer, and the octets written at the front of an output of that length.
    pub fn frame(&mut self, port: u32, side: u32, frame: &[u8], out_len: usize) -> (Answer, Vec<u8>) {
        (self.rules.calls.frame)(self, port, side, frame, out_len)
    }

    pub fn tick(&mut self, clock: u32) -> Answer {
        (self.rules.calls.tick)(self, clock)
    }

    pub fn allow(&mut self, flow: u32) -> Answer {
        (self.rules.calls.allow)(self, flow)
    }

    pub fn prohibit(&mut self, flow: u32) -> Answer {
        (self.rules.calls.prohibit)(self, flow)
    }

    /// The answer, and the octets written at the front of an output of that length.
    pub fn notice(&mut self, out_len: usize) -> (Answer, Vec<u8>) {
        (self.rules.calls.notice)(self, out_len)
    }

    pub fn restart(&mut self, clock: u32) -> Answer {
        (self.rules.calls.restart)(self, clock)
    }
}
