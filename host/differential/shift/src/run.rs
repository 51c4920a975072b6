//! Logs run by the program and by the model.

use std::ops::RangeInclusive;
use std::sync::atomic::{AtomicU64, Ordering};
use std::thread;

use shift_model::Rules;

use crate::{program, Coverage, Difference, Log, Place, Starter};

/// Runs one log; the difference, if there is one.
pub fn play(log: &Log, rules: &Rules, place: &Place, starter: &Starter) -> Result<Vec<u8>, Difference> {
    let told = log.told(rules);
    match Difference::between(log, &program::print(log, place, starter), &told) {
        Some(difference) => Err(difference),
        None => Ok(told),
    }
}

/// Runs the logs of all these seeds in so many threads, each up to its first difference.
pub fn play_many(seeds: RangeInclusive<u64>, threads: usize) -> Result<Coverage, Difference> {
    let (next, starter) = (AtomicU64::new(*seeds.start()), Starter::new());
    let each = || play_some(&next, *seeds.end(), &starter);
    let outcomes: Vec<Result<Coverage, Difference>> = thread::scope(|scope| {
        let running: Vec<_> = (0..threads).map(|_| scope.spawn(each)).collect();
        running.into_iter().map(|thread| thread.join().expect("a thread of runs ends")).collect()
    });
    let mut all = Coverage::default();
    for outcome in outcomes {
        all.add_all(outcome?);
    }
    Ok(all)
}

/// Takes one seed after the other that no other thread has taken.
fn play_some(next: &AtomicU64, last: u64, starter: &Starter) -> Result<Coverage, Difference> {
    let (place, rules, mut coverage) = (Place::new(), Rules::default(), Coverage::default());
    loop {
        let seed = next.fetch_add(1, Ordering::Relaxed);
        if seed > last {
            return Ok(coverage);
        }
        let log = Log::of(seed);
        match play(&log, &rules, &place, starter) {
            Ok(printed) => coverage.add(&log, &printed),
            Err(difference) => {
                next.store(last + 1, Ordering::Relaxed);
                return Err(difference);
            }
        }
    }
}
