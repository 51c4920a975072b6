//! Whether a wrong program was refused for what it is.

use crate::owner::Wrong;
use crate::said::{Fault, Ground, Said, State, Words};
use crate::source::Function;

#[derive(Debug)]
pub enum Verdict {
    /// Where, and in what words.
    Refused {
        at: String,
        words: Words,
    },
    NotRefused(String),
    /// The proof of this function names goals or steps that have other names in the edited text.
    OtherNames(String),
}

impl Verdict {
    pub fn is_refused(&self) -> bool {
        matches!(self, Verdict::Refused { .. })
    }
}

/// What a check shows of an edit. Only of a body a tactic's words are enough: it keeps its operations, and so its proof fits.
pub fn judge(wrong: &Wrong, said: &Said, functions: &[Function]) -> Verdict {
    if let Some(why) = &said.no_verdict {
        return Verdict::NotRefused(format!("the check came to no verdict: {why}"));
    }
    match wrong {
        Wrong::Bodies(names) => {
            let mut verdicts = names.iter().map(|name| in_function(name, said, functions));
            let first = verdicts.next().unwrap_or(Verdict::NotRefused("it edits no function".to_string()));
            verdicts.fold(first, best)
        }
        Wrong::Promise(name) => at_a_fact(in_function(name, said, functions)),
        Wrong::Definition => at_a_fact(of_definition(said)),
    }
}

fn best(one: Verdict, other: Verdict) -> Verdict {
    let rank = |verdict: &Verdict| match verdict {
        Verdict::Refused { .. } => 0,
        Verdict::OtherNames(_) => 1,
        Verdict::NotRefused(_) => 2,
    };
    if rank(&other) < rank(&one) {
        other
    } else {
        one
    }
}

fn at_a_fact(verdict: Verdict) -> Verdict {
    match verdict {
        Verdict::Refused { at, words: Words::Tactic } => {
            Verdict::NotRefused(format!("at {at} a tactic finds no way, and no fact is false"))
        }
        verdict => verdict,
    }
}

/// A function is refused if it is not among those that are proved, and has an error of its own.
fn in_function(name: &str, said: &Said, functions: &[Function]) -> Verdict {
    let not_refused = |why: &str| Verdict::NotRefused(format!("{name} {why}"));
    match said.functions.get(name) {
        None => return not_refused("is not named by the check"),
        Some(State::Proved) => return not_refused("is still proved"),
        Some(State::Unknown) => return not_refused("is neither proved nor refused"),
        Some(State::NotProved) => {}
    }
    let Some(function) = functions.iter().find(|f| f.name == name) else {
        return not_refused("is not in the sources");
    };
    let own: Vec<&Fault> = said.errors.iter().filter(|fault| is_own(fault, function)).collect();
    let is_unnamed = own.iter().any(|fault| fault.ground == Ground::Unnamed);
    match refused(&own) {
        // Where the proof names what is not there, a goal may be open for that alone.
        Some(Verdict::Refused { words: Words::Tactic, .. }) | None if is_unnamed => {
            Verdict::OtherNames(name.to_string())
        }
        Some(verdict) => verdict,
        None if own.is_empty() => not_refused("has no error of its own"),
        None => not_refused("is refused only because of what it uses, or as its proof does not fit"),
    }
}

/// An error in the function's own part of proofs/, or a note at its place in src/.
fn is_own(fault: &Fault, function: &Function) -> bool {
    fault.file.starts_with(&function.proofs()) || fault.file == function.file && function.lines.contains(&fault.line)
}

/// A definition that is itself refused shows nothing: what is proved of it has to fail, in proofs/ or where the kit looks for the proof of a
/// function.
fn of_definition(said: &Said) -> Verdict {
    if said.errors.iter().any(|fault| fault.file.starts_with("specs/")) {
        return Verdict::NotRefused("the edited definition is itself not admitted".to_string());
    }
    if let Some(fault) =
        said.errors.iter().find(|fault| fault.file.starts_with("src/") && fault.ground == Ground::Unfit)
    {
        return Verdict::NotRefused(format!("a clause at {}:{} can't be read with it", fault.file, fault.line));
    }
    refused(&said.errors.iter().collect::<Vec<_>>())
        .unwrap_or_else(|| Verdict::NotRefused("no law, example or function fails by itself".to_string()))
}

/// The first place where something is refused for itself, of those in the plainest words.
fn refused(faults: &[&Fault]) -> Option<Verdict> {
    let itself = faults.iter().filter_map(|fault| match fault.ground {
        Ground::Itself(words) => Some((words, fault)),
        Ground::Used | Ground::Unnamed | Ground::Unfit => None,
    });
    let (words, fault) = itself.min_by_key(|(words, _)| *words)?;
    Some(Verdict::Refused { at: format!("{}:{}", fault.file, fault.line), words })
}
