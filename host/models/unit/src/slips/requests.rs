//! Whether a frame is for an MP, and the five steps.

use super::{slip, Slip};
use crate::arrival::Arrival;
use crate::request::{decided, malformed, of_other_type, prohibited, short, Question};
use crate::target::{find, not_multicast, NotForMp, Target};
use crate::{Answer, Unit};

pub(super) const SLIPS: [Slip; 13] = [
    slip("ReplyServed", "Opcode 56 is served like 57.", |rules| rules.targets.opcodes = &[57, 56]),
    slip("FacingIgnored", "An MP faces both sides.", |rules| rules.targets.faces = |_, _| true),
    slip("AnyPortAddressServed", "The destination can be any port's address.", |rules| {
        rules.targets.is_own =
            |unit, Arrival { destination, .. }| unit.plan.ports.values().any(|port| port.address == *destination);
    }),
    slip("AnyClassTwoServed", "A multicast request can have another level's address.", |rules| {
        rules.targets.not_multicast = |arrival, _, pdu| not_multicast(arrival, arrival.destination[5] & 7, pdu);
    }),
    slip("AnyMulticastServed", "A multicast request can be of any type.", |rules| {
        rules.targets.not_multicast = |arrival, level, pdu| {
            not_multicast(arrival, level, pdu).filter(|&reason| reason != NotForMp::MulticastWrongType)
        };
    }),
    slip("ShortMulticastDropped", "A multicast request under 12 octets is dropped, not data.", |rules| {
        rules.targets.not_multicast = |arrival, level, pdu| {
            not_multicast(arrival, level, pdu).filter(|&reason| reason != NotForMp::MulticastShort)
        };
    }),
    slip("ShortRequestForwarded", "A request under 12 octets is forwarded.", |rules| {
        rules.requests.unanswered = &[prohibited, short_forwarded];
    }),
    slip("ShortRequestAnswered", "A request of 11 octets is answered.", |rules| rules.requests.least_pdu = 11),
    slip("RequestAboveLooped", "A request above the session's level is data.", |rules| rules.targets.find = not_above),
    slip("ProhibitedAnswered", "A request on a prohibited flow gets code 9.", |rules| {
        rules.requests.unanswered = &[short];
        rules.requests.answered = &[prohibited_code, malformed, of_other_type, decided];
    }),
    slip("ProhibitedMipDrops", "A MIP of a prohibited flow drops the multicast request.", |rules| {
        rules.requests.prohibited = |_| Answer::Drop;
    }),
    slip("ProhibitedMepForwards", "Every MP of a prohibited flow forwards the multicast request.", |rules| {
        rules.requests.prohibited = |target| if target.is_multicast { Answer::Forward } else { Answer::Drop };
    }),
    slip("TypeBeforeSyntax", "Code 10 comes before code 1.", |rules| {
        rules.requests.answered = &[of_other_type, malformed, decided];
    }),
];

fn short_forwarded(unit: &mut Unit, arrival: &Arrival, target: &Target) -> Option<Answer> {
    short(unit, arrival, target).map(|_| Answer::Forward)
}

fn not_above<'a>(unit: &Unit, arrival: &Arrival<'a>) -> Result<Target<'a>, NotForMp> {
    let target = find(unit, arrival)?;
    let is_above = unit.session(arrival).is_some_and(|session| target.level > session.level);
    if is_above {
        Err(NotForMp::NoMpAtLevel)
    } else {
        Ok(target)
    }
}

fn prohibited_code(unit: &mut Unit, question: &Question) -> Option<u8> {
    (!unit.is_allowed(&question.arrival)).then_some(9)
}
