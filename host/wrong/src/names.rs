//! The names of goals and steps. The kit names them after the text of the code, as `returns-then-kind-ne-TIMER` after `kind != TIMER`, and a
//! proof cites them. An edit of that text gives them other names, and the proof would be refused for these alone. So the proof of a function
//! that is edited is tried with its names as the kit has them for the edited text. Both have the same goals and steps in the same order, as
//! an edit of a body keeps the operations.

use std::collections::BTreeMap;
use std::fs;
use std::io;
use std::path::Path;

use crate::edit::Files;

/// What the modules that the kit makes of a function declare, in order: for each module its names.
#[derive(Debug, PartialEq, Eq)]
pub struct Names(Vec<Vec<String>>);

/// The modules with the names that a proof can cite; not each function has all of them.
const MODULES: [&str; 4] = ["AnswersOffered.antt", "InvariantsOffered.antt", "Lts/View.antt", "Lts.antt"];

impl Names {
    /// Of the modules that were made of this function, its path below the crate.
    pub fn read(made: &Path, krate: &str, function: &str) -> io::Result<Names> {
        let folder = made.join(format!("Rattle-{krate}-proofs")).join(function.replace("::", "/"));
        let read = |module: &&str| match fs::read_to_string(folder.join(module)) {
            Ok(text) => Ok(declared(&text)),
            Err(fault) if fault.kind() == io::ErrorKind::NotFound => Ok(Vec::new()),
            Err(fault) => Err(fault),
        };
        let names = Names(MODULES.iter().map(read).collect::<io::Result<_>>()?);
        match names.0[0].is_empty() {
            true => Err(io::Error::other(format!("the kit makes no goals of {function}"))),
            false => Ok(names),
        }
    }

    pub fn of(modules: &[&str]) -> Names {
        Names(modules.iter().map(|text| declared(text)).collect())
    }

    /// The new name of each name that is another now; nothing where the two have not the same goals and steps.
    pub fn turned(&self, now: &Names) -> Option<BTreeMap<String, String>> {
        let mut turned = BTreeMap::new();
        for (before, after) in self.0.iter().zip(&now.0) {
            if before.len() != after.len() {
                return None;
            }
            for (old, new) in before.iter().zip(after) {
                if turned.insert(old.clone(), new.clone()).is_some_and(|known| known != *new) {
                    return None;
                }
            }
        }
        turned.retain(|old, new| old != new);
        Some(turned)
    }
}

/// The names that a proof can cite: goals and invariants, `pub NAME : goal.NAME`; steps and arms, `pub NAME : Own-After-f before`; and the places of
/// goals, which are the records `In-NAME`. Of a long name the type may stand in the next line.
fn declared(text: &str) -> Vec<String> {
    let lines: Vec<&str> = text.lines().map(str::trim_start).collect();
    let next = lines.iter().skip(1).copied().chain([""]);
    lines.iter().zip(next).filter_map(|(line, next)| declares(line, next)).map(str::to_string).collect()
}

fn declares<'a>(line: &'a str, next: &str) -> Option<&'a str> {
    let line = line.strip_prefix("abbrev ").unwrap_or(line).strip_prefix("pub ")?;
    if let Some(record) = line.strip_prefix("record In-") {
        return record.split(' ').next();
    }
    let (name, of) = line.split_once(" :")?;
    let of = if of.trim().is_empty() { next } else { of.trim_start() };
    let is_cited = ["goal.", "Own-", "Step-", "Arm-"].iter().any(|kind| of.starts_with(kind));
    (is_cited && !name.contains(' ')).then_some(name)
}

/// The files with these names turned in all files below the folder.
pub fn turned(files: &Files, folder: &str, names: &BTreeMap<String, String>) -> Files {
    let one = |(file, text): (&String, &String)| match file.starts_with(folder) {
        true => (file.clone(), in_text(text, names)),
        false => (file.clone(), text.clone()),
    };
    files.iter().map(one).collect()
}

fn in_text(text: &str, names: &BTreeMap<String, String>) -> String {
    let mut out = String::new();
    let mut word = String::new();
    for c in text.chars().chain([' ']) {
        if c.is_alphanumeric() || c == '_' || c == '-' || c == '\'' {
            word.push(c);
            continue;
        }
        out.push_str(names.get(&word).unwrap_or(&word));
        word.clear();
        out.push(c);
    }
    out.pop();
    out
}
