//! Each of the model's planted slips is found by the logs that program and model agree in.

use std::thread;

use random::{given_seed, tell};
use shift_model::slips::{self, Slip};
use shift_runs::{bites, Place, Starter};

/// All of them are among the logs that program and model are compared on.
const MOST_LOGS: u64 = 1_000;
const THREADS: usize = 2;

/// The slip shows in a log of the model, and the same log of the program shows it too.
#[test]
fn bites() {
    let (slips, starter) = (slips::all(), Starter::new());
    let part = slips.len().div_ceil(THREADS);
    let hidden: Vec<Slip> = thread::scope(|scope| {
        let running: Vec<_> = slips.chunks(part).map(|part| scope.spawn(|| hidden(part, &starter))).collect();
        running.into_iter().flat_map(|thread| thread.join().expect("a thread of slips ends")).collect()
    });
    tell(&format!("shift: {} of {} slips found", slips.len() - hidden.len(), slips.len()));
    assert!(hidden.is_empty(), "not found: {hidden:?}");
}

fn hidden(slips: &[Slip], starter: &Starter) -> Vec<Slip> {
    let (first, place) = (given_seed().unwrap_or(1), Place::new());
    let is_found = |slip: &Slip| {
        let Some(seed) = bites::first_shown(*slip, first..first + MOST_LOGS) else {
            return false;
        };
        tell(&format!("shift: {} is found by log {}", slip.name, seed - first + 1));
        bites::is_found(*slip, seed, &place, starter)
    };
    slips.iter().filter(|slip| !is_found(slip)).copied().collect()
}
