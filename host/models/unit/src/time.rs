//! The tick call.

use crate::refusal::Call;
use crate::{Answer, Detail, Event, Mark, State, Unit};

#[derive(Clone, Debug)]
pub(crate) struct TimeRules {
    /// TIME-2.
    pub(crate) elapsed: fn(u32, u32) -> u32,
    /// TIME-4, TIME-5: the ms left after those elapsed.
    pub(crate) left: fn(u32, u32) -> Option<u32>,
}

impl Default for TimeRules {
    fn default() -> TimeRules {
        TimeRules { elapsed: |last, new| new.wrapping_sub(last), left }
    }
}

pub(crate) fn tick(unit: &mut Unit, clock: u32) -> Answer {
    if let Some(refused) = unit.refusal(Call::Tick { clock }) {
        return refused;
    }
    let elapsed = (unit.rules.time.elapsed)(unit.clock, clock);
    unit.detail(Detail::ClockWrapped, clock < unit.clock);
    unit.detail(Detail::TickOfNothing, elapsed == 0);
    unit.clock = clock;
    unit.pass(elapsed);
    unit.done()
}

pub(crate) fn left(ms_left: u32, elapsed: u32) -> Option<u32> {
    (ms_left > elapsed).then(|| ms_left - elapsed)
}

impl Unit {
    /// TIME-4, TIME-5: takes the time from every open session.
    fn pass(&mut self, elapsed: u32) {
        let mut expired = 0;
        for session in self.sessions.values_mut().filter(|session| session.is_open()) {
            match (self.rules.time.left)(session.ms_left, elapsed) {
                Some(left) => session.ms_left = left,
                None => {
                    (self.rules.machine.close)(session, 8);
                    expired += 1;
                }
            }
        }
        (0..expired).for_each(|_| self.mark(Mark::Entry(State::Active, Event::Expiry)));
        self.detail(Detail::SeveralExpired, expired > 1);
    }
}
