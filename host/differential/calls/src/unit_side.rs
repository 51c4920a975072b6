//! The unit's side: the image that its calls are lent.

use unit::{Answer, Outcome};

use crate::call::{Call, Play, Shown, Step};
use crate::lent::Lent;

/// Makes a call of that image, with that output.
type Ask = fn(&mut [u8], &Call, &mut [u8]) -> Answer;

pub(crate) struct UnitSide {
    ask: Ask,
    image: Vec<u8>,
    calls: usize,
}

impl UnitSide {
    /// The library that is linked.
    pub(crate) fn linked() -> UnitSide {
        UnitSide { ask: call, image: Vec::new(), calls: 0 }
    }

    /// The library for x86-64, on the emulator.
    #[cfg(not(target_arch = "x86_64"))]
    pub(crate) fn emulated() -> UnitSide {
        UnitSide { ask: crate::emulated::call, ..UnitSide::linked() }
    }
}

impl Play for UnitSide {
    /// Where octets lie in memory changes from call to call.
    fn play(&mut self, step: &Step, before: &[u8]) -> Shown {
        self.calls += 1;
        if let Some(octets) = &step.lent {
            self.image = octets.clone();
        }
        let (mut image, mut out) = (Lent::of(&self.image, self.calls % 16), Lent::of(before, self.calls % 11));
        let answer = (self.ask)(image.octets_mut(), &step.call, out.octets_mut());
        let is_unserved = matches!(answer.outcome(), Some(Outcome::Refused | Outcome::PlanFault));
        let breach = if !image.is_untouched_around() || !out.is_untouched_around() {
            Some("octets around the image or the output were touched")
        } else if is_unserved && (image.octets() != self.image || out.octets() != before) {
            Some("a call that was not served changed the image or the output")
        } else {
            None
        };
        self.image = image.octets().to_vec();
        Shown { answer, out: out.octets().to_vec(), image: self.image.clone(), breach }
    }
}

fn call(image: &mut [u8], call: &Call, out: &mut [u8]) -> Answer {
    match call {
        Call::Make { text, clock } => unit::make(image, text, *clock),
        Call::Frame { port, side, frame, .. } => unit::frame(image, *port, *side, frame, out),
        Call::Tick { clock } => unit::tick(image, *clock),
        Call::Allow { flow } => unit::allow(image, *flow),
        Call::Prohibit { flow } => unit::prohibit(image, *flow),
        Call::Notice { .. } => unit::notice(image, out),
        Call::Restart { clock } => unit::restart(image, *clock),
    }
}
