//! A call that was made, and what can be asked of it.

use image::{Session, Side, State};
use unit::{Answer, Outcome};

use crate::call::{Call, Step};

/// The states are those before and after the call; none where the image was no valid state's.
pub(crate) struct Scene<'a> {
    pub(crate) step: &'a Step,
    pub(crate) before: Option<State>,
    pub(crate) answer: Answer,
    pub(crate) after: Option<&'a State>,
}

impl Scene<'_> {
    /// The state whose image is lent to the step, given that of the last image.
    pub(crate) fn state_before(step: &Step, last: Option<&State>) -> Option<State> {
        match &step.lent {
            Some(octets) => State::read(octets),
            None => last.cloned(),
        }
    }

    pub(crate) fn is_call(&self, name: &str) -> bool {
        self.step.call.name() == name
    }

    pub(crate) fn is_outcome(&self, outcome: Outcome) -> bool {
        self.answer.outcome() == Some(outcome)
    }

    pub(crate) fn is_refused(&self, number: u8) -> bool {
        self.answer.refusal() == number
    }

    pub(crate) fn is_served(&self) -> bool {
        !self.is_outcome(Outcome::Refused) && !self.is_outcome(Outcome::PlanFault)
    }

    pub(crate) fn is_reply(&self) -> bool {
        self.is_outcome(Outcome::Reply)
    }

    pub(crate) fn writes(&self, outcome: Outcome, length: usize) -> bool {
        self.is_outcome(outcome) && self.answer.length() == length
    }

    /// Whether another image was lent, with a length that is so.
    pub(crate) fn is_lent(&self, is_so: impl Fn(usize) -> bool) -> bool {
        self.step.lent.as_ref().is_some_and(|octets| is_so(octets.len()))
    }

    pub(crate) fn is_frame_of(&self, length: usize) -> bool {
        matches!(&self.step.call, Call::Frame { frame, .. } if frame.len() == length)
    }

    pub(crate) fn is_text_of(&self, length: usize) -> bool {
        matches!(&self.step.call, Call::Make { text, .. } if text.len() == length)
    }

    pub(crate) fn has_before(&self, is_so: impl Fn(&State) -> bool) -> bool {
        self.before.as_ref().is_some_and(is_so)
    }

    pub(crate) fn has_after(&self, is_so: impl Fn(&State) -> bool) -> bool {
        self.after.is_some_and(is_so)
    }

    /// The ms of a tick, and whether the reading wrapped.
    pub(crate) fn elapsed(&self) -> Option<(u32, bool)> {
        let (Call::Tick { clock }, Some(before)) = (&self.step.call, &self.before) else {
            return None;
        };
        Some((clock.wrapping_sub(before.clock), *clock < before.clock))
    }

    /// Whether it is a tick that was served, and an open session had so many ms more than elapsed.
    pub(crate) fn ticks_to(&self, ms_more: i64) -> bool {
        let Some((elapsed, _)) = self.elapsed().filter(|_| self.is_served()) else {
            return false;
        };
        let is_it = |session: &Session| i64::from(session.ms_left) == i64::from(elapsed) + ms_more;
        self.has_before(|state| state.sessions.iter().any(|session| session.is_open() && is_it(session)))
    }

    /// Whether it opened a session of that sort.
    pub(crate) fn opens(&self, is_so: impl Fn(&State, &Session) -> bool) -> bool {
        let is_new = |session: &Session| {
            session.is_open() && self.has_before(|state| state.sessions.iter().all(|old| old.key() != session.key()))
        };
        self.is_reply()
            && self.has_after(|state| state.sessions.iter().any(|session| is_new(session) && is_so(state, session)))
    }

    /// Whether it is a frame from that side that was answered with "reply and forward".
    pub(crate) fn goes_on_from(&self, side: Side) -> bool {
        let is_from = matches!(&self.step.call, Call::Frame { side: from, .. } if *from == side as u32);
        is_from && self.is_outcome(Outcome::ReplyAndForward)
    }

    /// Whether it is a frame with OAM under the second of two tags.
    pub(crate) fn has_oam_under_two_tags(&self) -> bool {
        let Call::Frame { frame, .. } = &self.step.call else {
            return false;
        };
        let is_tag = |place: usize| matches!(frame.get(place..place + 2), Some([0x81, 0x00] | [0x88, 0xA8]));
        is_tag(12) && is_tag(16) && frame.get(20..22) == Some(&[0x89, 0x02])
    }
}
