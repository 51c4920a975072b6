//! All the wrong programs of a repository, tried.

use std::collections::VecDeque;
use std::path::Path;
use std::sync::{Condvar, Mutex, MutexGuard};
use std::thread;

use crate::check::Checker;
use crate::judge::Verdict;
use crate::listed;
use crate::report::{line, Report};
use crate::said::Said;
use crate::subject::{of_repository, Round};

#[derive(Default)]
pub struct Sum {
    pub refused: usize,
    pub not_refused: usize,
}

/// Tries the edits of the named crates, or of all. Each crate has to be proved as it stands, by rt and then by the same kind of check as
/// its edits: else a refusal would show nothing. While one is proved, edits of others are tried.
pub fn all(from: &Path, named: &[String]) -> Result<Sum, String> {
    let root = listed::root(from)?;
    let subjects = of_repository(&root, named)?;
    let checker = Checker::new(&root)?;
    let report = Report::new();
    let bad: Vec<&String> = subjects.iter().flat_map(|subject| &subject.bad).collect();
    bad.iter().for_each(|line| println!("  {line}"));
    let left: usize = subjects.iter().map(|subject| subject.left).sum();
    if left > 0 {
        println!("  left to rt: {left} of must-fail/, with other operations");
    }
    let queue = Queue::new(bad.len());
    let processors = thread::available_parallelism().map_or(1, usize::from);
    thread::scope(|scope| {
        for _ in 0..processors {
            scope.spawn(|| queue.work(|round| one(&checker, &report, round)));
        }
        for subject in subjects.iter().filter(|subject| subject.has_edits()) {
            match checker.prove(&subject.krate) {
                Ok(()) => {
                    report.expect(1);
                    queue.add(vec![subject.as_it_stands()]);
                }
                Err(fault) => queue.fail(fault),
            }
        }
        queue.close();
    });
    queue.ended()
}

/// What a round comes to: how many edits are refused and how many are not, and the rounds that have to follow.
struct Outcome<'a> {
    sum: Sum,
    again: Vec<Round<'a>>,
}

fn one<'a>(checker: &Checker, report: &Report, round: &Round<'a>) -> Result<Outcome<'a>, String> {
    let checked = round.check(checker)?;
    let said = Said::read(&checked.text);
    let name = &round.subject.krate.name;
    if round.is_empty() {
        if !said.all_proved() {
            return Err(format!("{name} is not proved as it stands:\n{}", checked.text));
        }
        let again = round.subject.rounds();
        report.expect(again.len());
        report.ended(&format!("{name} as it stands, proved"), &[]);
        return Ok(Outcome { sum: Sum::default(), again });
    }
    let verdicts = round.verdicts(&said);
    let again = round.again(&verdicts);
    report.expect(again.len());
    let told: Vec<&(String, Verdict)> =
        verdicts.iter().filter(|(name, _)| again.iter().all(|later| !later.tells_of(name))).collect();
    let lines = told.iter().map(|(name, verdict)| line(name, verdict, checked.seconds));
    let lines: Vec<String> = lines.chain(again.iter().map(Round::to_come)).collect();
    report.ended(&format!("{name}, {}", round.label), &lines);
    let refused = told.iter().filter(|(_, verdict)| verdict.is_refused()).count();
    Ok(Outcome { sum: Sum { refused, not_refused: told.len() - refused }, again })
}

/// The rounds that wait for a processor.
struct Queue<'a> {
    state: Mutex<State<'a>>,
    changed: Condvar,
}

struct State<'a> {
    waiting: VecDeque<Round<'a>>,
    busy: usize,
    /// Whether no more rounds come from elsewhere than from rounds.
    is_closed: bool,
    fault: Option<String>,
    sum: Sum,
}

impl<'a> Queue<'a> {
    fn new(not_refused: usize) -> Queue<'a> {
        let sum = Sum { refused: 0, not_refused };
        let state = State { waiting: VecDeque::new(), busy: 0, is_closed: false, fault: None, sum };
        Queue { state: Mutex::new(state), changed: Condvar::new() }
    }

    fn state(&self) -> MutexGuard<'_, State<'a>> {
        self.state.lock().expect("no other worker has panicked")
    }

    fn add(&self, rounds: Vec<Round<'a>>) {
        self.state().waiting.extend(rounds);
        self.changed.notify_all();
    }

    /// Ends the work.
    fn fail(&self, fault: String) {
        self.state().fault.get_or_insert(fault);
        self.changed.notify_all();
    }

    fn close(&self) {
        self.state().is_closed = true;
        self.changed.notify_all();
    }

    /// Does the work on one round after another, until all is done or something has failed.
    fn work(&self, work: impl Fn(&Round<'a>) -> Result<Outcome<'a>, String>) {
        while let Some(round) = self.next() {
            let done = work(&round);
            let mut state = self.state();
            state.busy -= 1;
            match done {
                Ok(Outcome { sum, again }) => {
                    state.sum.refused += sum.refused;
                    state.sum.not_refused += sum.not_refused;
                    state.waiting.extend(again);
                }
                Err(fault) => {
                    state.fault.get_or_insert(fault);
                }
            }
            drop(state);
            self.changed.notify_all();
        }
    }

    fn next(&self) -> Option<Round<'a>> {
        let mut state = self.state();
        loop {
            if state.fault.is_some() {
                return None;
            }
            if let Some(round) = state.waiting.pop_front() {
                state.busy += 1;
                return Some(round);
            }
            if state.is_closed && state.busy == 0 {
                return None;
            }
            state = self.changed.wait(state).expect("no other worker has panicked");
        }
    }

    fn ended(self) -> Result<Sum, String> {
        let state = self.state.into_inner().expect("no worker has panicked");
        state.fault.map_or(Ok(state.sum), Err)
    }
}
