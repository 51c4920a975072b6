//! What is written as the checks end.

use std::sync::atomic::{AtomicUsize, Ordering};
use std::time::Instant;

use crate::judge::Verdict;
use crate::said::Words;

pub struct Report {
    began: Instant,
    checks: AtomicUsize,
    ended: AtomicUsize,
}

impl Report {
    pub fn new() -> Report {
        Report { began: Instant::now(), checks: AtomicUsize::new(0), ended: AtomicUsize::new(0) }
    }

    /// So many checks more are to come.
    pub fn expect(&self, checks: usize) {
        self.checks.fetch_add(checks, Ordering::Relaxed);
    }

    /// One check has ended, with these lines.
    pub fn ended(&self, what: &str, lines: &[String]) {
        let ended = self.ended.fetch_add(1, Ordering::Relaxed) + 1;
        let (checks, seconds) = (self.checks.load(Ordering::Relaxed), self.began.elapsed().as_secs());
        let head = format!("wrong: {ended} of {checks} checks, {} min {:02} s: {what}\n", seconds / 60, seconds % 60);
        // In one piece, as other checks end too.
        print!("{head}{}", lines.iter().map(|line| format!("  {line}\n")).collect::<String>());
    }
}

impl Default for Report {
    fn default() -> Report {
        Report::new()
    }
}

/// The line of one edit.
pub fn line(name: &str, verdict: &Verdict, seconds: u64) -> String {
    match verdict {
        Verdict::Refused { at, words } => format!("{name}: refused at {at}, {} ({seconds} s)", said(*words)),
        Verdict::NotRefused(why) => format!("{name}: NOT REFUSED: {why} ({seconds} s)"),
        Verdict::OtherNames(function) => {
            format!("{name}: NOT REFUSED: the proof of {function} names what is not there ({seconds} s)")
        }
    }
}

fn said(words: Words) -> &'static str {
    match words {
        Words::FalseFact => "a false fact",
        Words::Values => "values at which a goal is false",
        Words::EquationLeft => "an equation that is left",
        Words::Tactic => "in a tactic's words",
    }
}
