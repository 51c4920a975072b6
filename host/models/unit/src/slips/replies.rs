//! What a reply says of its request and of the session: flags, timer and copies.

use super::{slip, Slip};
use crate::reply_parts::{active, copy, seconds_left, ACTIVE, COPIED, EXTERNAL};
use crate::Side;

/// Each but one is a part that comes last, and says again what it should not.
pub(super) const SLIPS: [Slip; 17] = [
    slip("StatusInAnyType", "Bit 1 is told for any message type.", |rules| {
        rules.replies.parts.push(|reply, told| reply.flags |= told.session.map_or(0, |session| active(session.side)));
    }),
    slip("NoStatusUnderCodeOne", "Bits 1 and 2 are 0 under code 1.", |rules| {
        rules.replies.parts.push(|reply, _| {
            if reply.code == 1 {
                reply.flags &= !(ACTIVE | EXTERNAL);
            }
        });
    }),
    slip("StatusBeforeCall", "Replies tell of the session before the call.", |rules| {
        rules.requests.served = |unit, question| {
            let before = unit.session(&question.arrival);
            let code = unit.code(question);
            unit.reply_to(question, code, before)
        };
    }),
    slip("DirectionOfRequest", "Bit 2 is the side that the request came from.", |rules| {
        rules.replies.parts.push(|reply, told| {
            if reply.flags & ACTIVE != 0 {
                reply.flags = reply.flags & COPIED | active(told.question.arrival.side);
            }
        });
    }),
    slip("DirectionInverted", "Bit 2 is the CEN.", |rules| {
        rules.replies.parts.push(|reply, _| {
            if reply.flags & ACTIVE != 0 {
                reply.flags ^= EXTERNAL;
            }
        });
    }),
    slip("DirectionWithoutStatus", "Bit 2 is told without bit 1.", |rules| {
        rules.replies.parts.push(|reply, told| {
            if reply.flags & ACTIVE == 0 && told.question.arrival.side == Side::External {
                reply.flags |= EXTERNAL;
            }
        });
    }),
    slip("CopiedFlagClear", "Bit 3 is 0.", |rules| rules.replies.parts.push(|reply, _| reply.flags &= !COPIED)),
    slip("FlagsKept", "The other bits are those of the request.", |rules| {
        rules.replies.parts.push(|reply, told| reply.flags |= told.question.target.pdu[2] & 0xF8);
    }),
    slip("CopiesUnderCodeOne", "TLVs are copied under code 1.", |rules| rules.replies.parts.push(copy)),
    slip("NoCopiesUnderCodeTen", "No TLVs are copied under code 10.", |rules| {
        rules.replies.parts.push(|reply, _| {
            if reply.code == 10 {
                reply.copies.clear();
                reply.flags &= !COPIED;
            }
        });
    }),
    slip("CopiesReversed", "TLVs are copied in reverse order.", |rules| {
        rules.replies.parts.push(|reply, _| reply.copies.reverse());
    }),
    slip("TimerUnderCodeOne", "Types 1 and 3 carry the timer under code 1 too.", |rules| {
        rules.replies.parts.push(|reply, told| {
            if matches!(reply.message_type, 1 | 3) {
                reply.seconds = Some(seconds_left(told.session));
            }
        });
    }),
    slip("TimerUnderCodeTen", "A reply with code 10 carries the timer.", |rules| {
        rules.replies.parts.push(|reply, told| {
            if reply.code == 10 {
                reply.seconds = Some(seconds_left(told.session));
            }
        });
    }),
    slip("TimerInDeactivate", "Type 2 carries the timer of a session that stays open.", |rules| {
        rules.replies.parts.push(|reply, told| {
            if reply.message_type == 2 && reply.code != 1 && told.session.is_some() {
                reply.seconds = Some(seconds_left(told.session));
            }
        });
    }),
    slip("CodeSevenNoSeconds", "Under code 7 no seconds are left.", |rules| {
        rules.replies.parts.push(|reply, _| {
            if reply.code == 7 {
                reply.seconds = reply.seconds.map(|_| 0);
            }
        });
    }),
    slip("SecondsEchoed", "An Activate's reply has the seconds of the request.", |rules| {
        rules.replies.parts.push(|reply, told| {
            if reply.message_type == 1 && reply.code != 1 {
                reply.seconds = told.question.reading.seconds();
            }
        });
    }),
    slip("SecondsRoundedDown", "Seconds left are rounded down.", |rules| {
        rules.replies.parts.push(|reply, told| {
            let down = told.session.map_or(0, |session| session.ms_left / 1000);
            reply.seconds = reply.seconds.map(|_| down);
        });
    }),
];
