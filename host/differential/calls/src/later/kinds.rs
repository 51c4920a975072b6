//! Kinds of rewritten requests: by type, by what became of them, by what was there, and by what was changed.

use unit::Outcome;

use crate::call::Shown;
use crate::later::rewrite::Rewriting;
use crate::lengths::MOST_FRAME;

/// Something that a rewritten request can be, given what is shown of it.
type Kind = (&'static str, fn(&Rewriting, &Shown) -> bool);

pub(crate) const KINDS: [Kind; 39] = [
    ("Activate", |request, _| request.new.message_type == 1),
    ("Deactivate", |request, _| request.new.message_type == 2),
    ("State", |request, _| request.new.message_type == 3),
    ("reply", |_, shown| shown.answer.outcome() == Some(Outcome::Reply)),
    ("reply and forward", |_, shown| shown.answer.outcome() == Some(Outcome::ReplyAndForward)),
    ("drop, flow prohibited", |_, shown| shown.answer.outcome() == Some(Outcome::Drop)),
    ("forward, flow prohibited at a MIP", |_, shown| shown.answer.outcome() == Some(Outcome::Forward)),
    ("refused, output too short", |_, shown| shown.answer.refusal() == 3),
    ("refused, notice due", |_, shown| shown.answer.refusal() == 4),
    ("reply, code 0", |request, shown| is_code(request, shown, 0)),
    ("reply, code 2", |request, shown| is_code(request, shown, 2)),
    ("reply, code 4", |request, shown| is_code(request, shown, 4)),
    ("reply, code 5", |request, shown| is_code(request, shown, 5)),
    ("reply, code 6", |request, shown| is_code(request, shown, 6)),
    ("reply, code 7", |request, shown| is_code(request, shown, 7)),
    ("reply of 2,008 octets", |_, shown| is_reply(shown) && shown.answer.length() == 2008),
    ("version 0 before", |request, _| request.old.version == 0),
    ("later version before", |request, _| request.old.version > 0),
    ("first version of the later ones", |request, _| request.new.version == 1),
    ("last version", |request, _| request.new.version == 31),
    ("nothing but the version", |request, _| changes(request) == [false; 3]),
    ("all that can be changed", |request, _| changes(request) == [true; 3]),
    ("reserved flags changed", |request, _| changes(request)[0]),
    ("octets added ahead of the TLVs", |request, _| changes(request)[1]),
    ("octets added behind others", |request, _| changes(request)[1] && !request.old.between.is_empty()),
    ("offset raised to 255", |request, _| changes(request)[1] && request.new.between.len() == 247),
    ("one TLV added", |request, _| request.new.tlvs.len() == request.old.tlvs.len() + 1),
    ("several TLVs added", |request, _| request.new.tlvs.len() > request.old.tlvs.len() + 1),
    ("TLVs added where no unknown one was", |request, _| changes(request)[2] && request.old.unknown().is_empty()),
    ("TLVs added among unknown ones", |request, _| changes(request)[2] && !request.old.unknown().is_empty()),
    ("TLV added ahead of the timer", |request, _| request.new.ahead_of_timer() > request.old.ahead_of_timer()),
    ("TLV added straight ahead of End", |request, _| request.new.tlvs.last() != request.old.tlvs.last()),
    ("TLV of type 31 added", |request, _| adds(request, |tlv| tlv[0] == 31)),
    ("TLV of type 37 added", |request, _| adds(request, |tlv| tlv[0] == 37)),
    ("TLV of type 37 as long as a timer added", |request, _| adds(request, |tlv| tlv[..3] == [37, 0, 5])),
    ("TLV without a value added", |request, _| adds(request, |tlv| tlv.len() == 3)),
    ("the same TLV twice", |request, _| has_repeat(&request.new.unknown()) && !has_repeat(&request.old.unknown())),
    ("octets behind End", |request, _| request.old.tail.len() > 1),
    ("2,000 octets", |request, _| changes(request)[2] && request.frame().len() == MOST_FRAME),
];

pub(crate) fn is_reply(shown: &Shown) -> bool {
    matches!(shown.answer.outcome(), Some(Outcome::Reply | Outcome::ReplyAndForward))
}

fn is_code(request: &Rewriting, shown: &Shown, code: u8) -> bool {
    is_reply(shown) && shown.out.get(request.head.len() + 5) == Some(&code)
}

/// Whether other things than the version changed: flags, octets ahead of the TLVs, TLVs.
fn changes(request: &Rewriting) -> [bool; 3] {
    let (old, new) = (&request.old, &request.new);
    [old.flags != new.flags, old.between != new.between, old.tlvs != new.tlvs]
}

/// Whether a TLV that is so was added.
fn adds(request: &Rewriting, is_so: impl Fn(&[u8]) -> bool) -> bool {
    let count = |tlvs: &[Vec<u8>]| tlvs.iter().filter(|tlv| is_so(tlv)).count();
    count(&request.new.tlvs) > count(&request.old.tlvs)
}

fn has_repeat(tlvs: &[&[u8]]) -> bool {
    (1..tlvs.len()).any(|place| tlvs[..place].contains(&tlvs[place]))
}
