//! The frame call.

use crate::arrival::Written;
use crate::refusal::Call;
use crate::{Answer, Mark, Side, Unit};

pub(crate) fn frame(unit: &mut Unit, port: u32, side: u32, frame: &[u8], out_len: usize) -> Written {
    if let Some(refused) = unit.refusal(Call::Frame { port, side, frame, out_len }) {
        return nothing(refused);
    }
    let (port, side) = unit.place(port, side).expect("else it was refused");
    let (answer, octets) = accepted(unit, port, side, frame);
    (unit.answer(answer), octets)
}

fn accepted(unit: &mut Unit, port: u32, side: Side, frame: &[u8]) -> Written {
    match unit.arrival(port, side, frame) {
        Ok(arrival) => match (unit.rules.targets.find)(unit, &arrival) {
            Ok(target) => unit.request(arrival, target),
            Err(reason) => {
                unit.mark(Mark::Data(reason));
                unit.data(&arrival)
            }
        },
        Err(reason) => {
            unit.mark(Mark::NoSet(reason));
            nothing(Answer::Forward)
        }
    }
}

/// An answer with which nothing is written.
pub(crate) fn nothing(answer: Answer) -> Written {
    (answer, Vec::new())
}
