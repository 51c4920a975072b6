//! Random calls, and what a unit answers to them.

use crate::{frames, requests};
use model::{Answer, Unit};
use random::Random;

#[derive(Clone, Debug)]
pub enum Call {
    Frame(u32, u32, Vec<u8>, usize),
    Tick(u32),
    Allow(u32),
    Prohibit(u32),
    Notice(usize),
    Restart(u32),
}

impl Call {
    pub fn hand_to(&self, unit: &mut Unit) -> (Answer, Vec<u8>) {
        match self {
            Call::Frame(port, side, frame, out_len) => unit.frame(*port, *side, frame, *out_len),
            Call::Tick(clock) => (unit.tick(*clock), Vec::new()),
            Call::Allow(flow) => (unit.allow(*flow), Vec::new()),
            Call::Prohibit(flow) => (unit.prohibit(*flow), Vec::new()),
            Call::Notice(out_len) => unit.notice(*out_len),
            Call::Restart(clock) => (unit.restart(*clock), Vec::new()),
        }
    }
}

pub fn random(rng: &mut Random, in_crowd: bool, state: &image::State) -> Call {
    let is_due = state.sessions.iter().any(|session| session.notice.is_some());
    if is_due && rng.one_in(2) {
        return Call::Notice(out_len(rng));
    }
    let first = if in_crowd && !rng.one_in(8) { 12 } else { 0 };
    match first + rng.below(60 - first) {
        0..=6 => Call::Tick(clock(rng, state)),
        7 | 8 => Call::Allow(flow(rng)),
        9 => Call::Prohibit(flow(rng)),
        10 => Call::Notice(out_len(rng)),
        11 if rng.one_in(3) => Call::Restart(clock(rng, state)),
        12..=34 => {
            let (port, side, frame) = requests::random(rng, in_crowd);
            Call::Frame(port, side, frame, 2008)
        }
        _ => {
            let own = rng.pick(&[1, 1, 1, 2, 3, 3]);
            let port = if rng.one_in(40) { rng.pick(&[0, 4, 257]) } else { own };
            let side = if rng.one_in(40) { rng.pick(&[2, 256]) } else { rng.pick(&[0, 1, 1]) };
            Call::Frame(port, side, frames::random(rng, own as u8), out_len(rng))
        }
    }
}

fn out_len(rng: &mut Random) -> usize {
    rng.pick(&[2008, 2008, 2008, 2008, 2008, 2008, 2008, 2008, 4000, 2007, 2000, 0])
}

fn flow(rng: &mut Random) -> u32 {
    rng.pick(&[1, 1, 1, 2, 2, 3, 3, 4, 4, 5, 5, 6, 6, 7, 257])
}

/// A reading at, just before or just after something happens.
fn clock(rng: &mut Random, state: &image::State) -> u32 {
    let left = match state.sessions.is_empty() {
        true => 1000,
        false => rng.pick(&state.sessions).ms_left,
    };
    let step = match rng.below(20) {
        0 => 0x7FFF_FFFF,
        1 => 0x8000_0000,
        2 => u32::MAX,
        3..=5 => left,
        6 => left.saturating_sub(1),
        7 => left + 1,
        _ => rng.pick(&[0, 1, 300, 999, 1000, 1500]),
    };
    state.clock.wrapping_add(step)
}
