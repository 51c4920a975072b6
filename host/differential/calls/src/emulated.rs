//! A call of the library for x86-64, on a machine that can't link it.

use served::{Call as Served, Lent};
use unit::Answer;

use crate::call::Call;

pub(crate) fn call(image: &mut [u8], call: &Call, out: &mut [u8]) -> Answer {
    let (which, numbers, input): (Served, [u32; 2], &[u8]) = match call {
        Call::Make { text, clock } => (Served::Make, [*clock, 0], text),
        Call::Frame { port, side, frame, .. } => (Served::Frame, [*port, *side], frame),
        Call::Tick { clock } => (Served::Tick, [*clock, 0], &[]),
        Call::Allow { flow } => (Served::Allow, [*flow, 0], &[]),
        Call::Prohibit { flow } => (Served::Prohibit, [*flow, 0], &[]),
        Call::Notice { .. } => (Served::Notice, [0, 0], &[]),
        Call::Restart { clock } => (Served::Restart, [*clock, 0], &[]),
    };
    Answer(served::call(which, &numbers.map(u64::from), Lent { image, input, out }))
}
