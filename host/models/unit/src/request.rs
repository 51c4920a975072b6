//! Requests at an MP: the five steps.

use crate::arrival::{Arrival, Written};
use crate::frame::nothing;
use crate::request_read::Reading;
use crate::target::Target;
use crate::{Answer, Detail, Mark, MpKind, Request, State, Unit};

/// A request that was read.
pub(crate) struct Question<'a> {
    pub(crate) arrival: Arrival<'a>,
    pub(crate) target: Target<'a>,
    pub(crate) reading: Reading<'a>,
}

/// A step that no reply follows: its answer, if the request ends there.
pub(crate) type Unanswered = fn(&mut Unit, &Arrival, &Target) -> Option<Answer>;

/// A step that a reply follows: its code, if the request ends there.
pub(crate) type Answered = fn(&mut Unit, &Question) -> Option<u8>;

#[derive(Clone, Debug)]
pub(crate) struct RequestRules {
    /// Steps 1 and 2.
    pub(crate) unanswered: &'static [Unanswered],
    /// Steps 3 to 5.
    pub(crate) answered: &'static [Answered],
    /// REQUEST-2, REQUEST-3.
    pub(crate) prohibited: fn(&Target) -> Answer,
    /// Step 2: "Under 12 PDU octets".
    pub(crate) least_pdu: usize,
    /// What comes of a question: the steps that a reply follows, then the reply.
    pub(crate) served: fn(&mut Unit, &Question) -> Written,
}

impl Default for RequestRules {
    fn default() -> RequestRules {
        RequestRules {
            unanswered: &[prohibited, short],
            answered: &[malformed, of_other_type, decided],
            prohibited: |target| match target.is_multicast && target.mp == MpKind::Mip {
                true => Answer::Forward,
                false => Answer::Drop,
            },
            least_pdu: 12,
            served,
        }
    }
}

impl Unit {
    pub(crate) fn request(&mut self, arrival: Arrival, target: Target) -> Written {
        let steps = self.rules.requests.unanswered;
        if let Some(answer) = steps.iter().find_map(|step| step(self, &arrival, &target)) {
            return nothing(answer);
        }
        let reading = self.read_request(&arrival, &target);
        (self.rules.requests.served)(self, &Question { arrival, target, reading })
    }

    /// The code of the reply; the state is the next one.
    pub(crate) fn code(&mut self, question: &Question) -> u8 {
        let steps = self.rules.requests.answered;
        steps.iter().find_map(|step| step(self, question)).expect("the machine decides")
    }
}

/// Replies tell of the session after the call.
fn served(unit: &mut Unit, question: &Question) -> Written {
    let code = unit.code(question);
    unit.reply_to(question, code, unit.session(&question.arrival))
}

/// Step 1.
pub(crate) fn prohibited(unit: &mut Unit, arrival: &Arrival, target: &Target) -> Option<Answer> {
    if unit.is_allowed(arrival) {
        return None;
    }
    let asked = target.pdu.get(4).and_then(|&octet| Request::of(octet));
    if let Some(request) = asked.filter(|_| target.pdu.len() >= 12) {
        unit.mark(Mark::Entry(State::Prohibited, request.event()));
    }
    let answer = (unit.rules.requests.prohibited)(target);
    unit.detail(Detail::ProhibitedMulticast, answer == Answer::Forward);
    unit.detail(Detail::ProhibitedDrop, answer == Answer::Drop);
    Some(answer)
}

/// Step 2.
pub(crate) fn short(unit: &mut Unit, _: &Arrival, target: &Target) -> Option<Answer> {
    let is_short = target.pdu.len() < unit.rules.requests.least_pdu;
    unit.detail(Detail::ShortDrop, is_short);
    is_short.then_some(Answer::Drop)
}

/// Step 3.
pub(crate) fn malformed(unit: &mut Unit, question: &Question) -> Option<u8> {
    let kind = question.reading.malformed?;
    unit.mark(Mark::Malformed(kind));
    Some(1)
}

/// Step 4.
pub(crate) fn of_other_type(_: &mut Unit, question: &Question) -> Option<u8> {
    match Request::of(question.reading.message_type) {
        Some(_) => None,
        None => Some(10),
    }
}

/// Step 5.
pub(crate) fn decided(unit: &mut Unit, question: &Question) -> Option<u8> {
    let request = Request::of(question.reading.message_type)?;
    Some(unit.decide(request, question))
}
