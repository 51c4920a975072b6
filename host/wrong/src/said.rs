//! What a check said: of which functions it says that they are proved, and each error.

use std::collections::BTreeMap;

pub struct Said {
    /// Why the prover gave no verdict, where it gave none: the compiler stopped before it, or it could not tell.
    pub no_verdict: Option<String>,
    pub functions: BTreeMap<String, State>,
    pub errors: Vec<Fault>,
}

#[derive(Clone, Copy, Debug, PartialEq, Eq)]
pub enum State {
    Proved,
    NotProved,
    /// The prover could not tell.
    Unknown,
}

#[derive(Debug)]
pub struct Fault {
    /// Its file's path in the crate, and the line.
    pub file: String,
    pub line: usize,
    pub ground: Ground,
}

/// Why something was refused.
#[derive(Clone, Copy, Debug, PartialEq, Eq)]
pub enum Ground {
    /// For itself.
    Itself(Words),
    /// Something that it uses was not admitted.
    Used,
    /// It names a goal, a step or another thing that is not there.
    Unnamed,
    /// The text does not fit the code, can't be read, or is refused in words that are not known here.
    Unfit,
}

/// In what words something is refused for itself, the plainest first.
#[derive(Clone, Copy, Debug, PartialEq, Eq, PartialOrd, Ord)]
pub enum Words {
    /// A fact has another type than is wanted, as 86400 expected and 86401 found.
    FalseFact,
    /// The prover has values at which a goal is false, though all that is known there holds.
    Values,
    /// A tactic rewrote the goal, and leaves an equation of which there is no proof.
    EquationLeft,
    /// A tactic finds no way.
    Tactic,
}

const TACTICS: [&str; 9] = ["cc", "grind", "grw", "omega", "rw", "search", "simp", "subst", "transport"];
const UNNAMED: [&str; 4] = ["that can be named from here", "is not in scope", "has no field", "is no name"];
const CONTINUED: [&str; 2] = ["but this has type `", "has no field `"];
const VALUES: &str = "allow values at which this goal is false";

impl Said {
    /// Of what a check wrote that ran in the crate's folder.
    pub fn read(text: &str) -> Said {
        let judged = text.lines().any(|line| line.starts_with("logic=proved") || line.starts_with("logic=not-proved"));
        let stopped = || text.lines().find(|line| line.contains("error")).unwrap_or("it says nothing of it");
        let no_verdict = (!judged).then(|| stopped().to_string());
        let mut said = Said { no_verdict, functions: BTreeMap::new(), errors: Vec::new() };
        for line in whole(text).lines() {
            if let Some((name, state)) = line.strip_prefix("fn ").and_then(|rest| rest.split_once(": ")) {
                said.functions.insert(name.to_string(), State::read(state));
            } else if let Some(fault) = note(line).or_else(|| error(line)) {
                said.errors.push(fault);
            }
        }
        said
    }

    pub fn all_proved(&self) -> bool {
        let proved = |state: &State| *state == State::Proved;
        self.no_verdict.is_none() && self.errors.is_empty() && self.functions.values().all(proved)
    }
}

/// The text with what is written in two lines where the first is long: a type that is expected and the one that was found, and a record
/// and the field that it has not.
fn whole(text: &str) -> String {
    CONTINUED.iter().fold(text.to_string(), |text, words| text.replace(&format!("\n  {words}"), &format!(" {words}")))
}

impl State {
    fn read(words: &str) -> State {
        // A closure is proved as far as its callers give what it asks, and each of them is checked for that.
        if words == "proved" || words.starts_with("proved where ") {
            State::Proved
        } else if words.starts_with("not proved") || words.starts_with("no proof") {
            State::NotProved
        } else {
            State::Unknown
        }
    }
}

/// `./proofs/a/f/Answers.antt:28:74: error: WORDS`
fn error(line: &str) -> Option<Fault> {
    let (place, words) = line.split_once(": error: ")?;
    let (file, line) = placed(place)?;
    // What is said of a clause is that it can't be read: no proof stands in src/.
    let ground = if file.starts_with("src/") { Ground::Unfit } else { ground(words) };
    Some(Fault { file, line, ground })
}

/// `note: src/a.rt:82:1: it is not proved that .. (`GOAL`); WHY`, of a goal whose proof the kit looked for.
fn note(line: &str) -> Option<Fault> {
    let (place, words) = line.strip_prefix("note: ")?.split_once(": it is not proved that ")?;
    let (file, line) = placed(place)?;
    let words = if words.contains(VALUES) { Words::Values } else { Words::Tactic };
    Some(Fault { file, line, ground: Ground::Itself(words) })
}

/// The file and the line of `./FILE:LINE:COLUMN`.
fn placed(place: &str) -> Option<(String, usize)> {
    let mut parts = place.strip_prefix("./").unwrap_or(place).rsplitn(3, ':').skip(1);
    let line = parts.next()?.parse().ok()?;
    Some((parts.next()?.to_string(), line))
}

/// An error begins with the name of what is refused, then the tactic's if it is one that refuses.
fn ground(words: &str) -> Ground {
    if ["was not admitted", "was not checked", "were not checked"].iter().any(|used| words.contains(used)) {
        return Ground::Used;
    }
    let Some((name, words)) = words.strip_prefix('`').and_then(|words| words.split_once("`: ")) else {
        return Ground::Unfit;
    };
    if UNNAMED.iter().any(|unnamed| words.contains(unnamed)) {
        return Ground::Unnamed;
    }
    // A function's `.._spec` only hands on what was proved: it fails where the code needs something else.
    if name.ends_with("_spec") {
        return Ground::Unfit;
    }
    let first = words.strip_prefix('`').and_then(|words| words.split('`').next());
    if words.starts_with("give a proof of that as the last argument") {
        Ground::Itself(Words::EquationLeft)
    } else if first.is_some_and(|name| TACTICS.contains(&name)) || words.starts_with("list the missing equation") {
        Ground::Itself(Words::Tactic)
    } else if is_false_fact(words) {
        Ground::Itself(Words::FalseFact)
    } else {
        Ground::Unfit
    }
}

/// Two types, or the values of two terms, that are to be the same and differ; or are shown, as they have nothing in common.
fn is_false_fact(words: &str) -> bool {
    let two = ["the two types", "the two values", "the two sides", "the two indices"];
    let apart = |two: &&str| words.contains(&format!("{two} are `")) || words.contains(two) && words.contains("differ");
    two.iter().any(apart) || words.contains("expected type `") && words.contains("but this has type `")
}
