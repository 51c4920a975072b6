//! A crate with its edits, and the rounds in which they are tried.

use std::collections::BTreeMap;
use std::path::Path;
use std::sync::{Arc, Mutex};

use crate::check::{Checked, Checker};
use crate::edit::{self, Edit, Files, Place};
use crate::judge::{judge, Verdict};
use crate::listed::{self, Listed};
use crate::names::{self, Names};
use crate::owner::{Sources, Wrong};
use crate::round::rounds;
use crate::said::Said;

pub struct Subject {
    pub krate: Listed,
    files: Files,
    edits: Vec<Tried>,
    /// A line for each edit that can't be tried.
    pub bad: Vec<String>,
    /// How many edits are left to the kit.
    pub left: usize,
    /// The names of functions as they stand, as far as they were asked for.
    names: Mutex<BTreeMap<String, Asked>>,
}

/// The names of a function, once they are known.
type Asked = Arc<Mutex<Option<Arc<Names>>>>;

struct Tried {
    name: String,
    places: Vec<Place>,
    wrong: Wrong,
}

/// Some edits of a crate, for one check.
pub struct Round<'a> {
    pub subject: &'a Subject,
    pub label: String,
    edits: Vec<usize>,
    /// Whether the proofs of the edited functions are tried with the names that the edit gives to goals and steps.
    is_renamed: bool,
}

/// The named crates, or all, that have edits; of a name `CRATE/EDIT` that edit alone. Those with the most to check come first, so that no
/// processor is left with one of them at the end.
pub fn of_repository(root: &Path, named: &[String]) -> Result<Vec<Subject>, String> {
    let listed = listed::crates(root)?;
    let krate = |name: &String| name.split('/').next().unwrap_or_default().to_string();
    if let Some(unknown) = named.iter().map(krate).find(|name| listed.iter().all(|krate| krate.name != **name)) {
        return Err(format!("crates.txt has no crate {unknown}"));
    }
    let wanted = listed.into_iter().filter(|one| named.is_empty() || named.iter().any(|name| krate(name) == one.name));
    let subjects: Result<Vec<Subject>, String> = wanted.map(|krate| Subject::of(root, krate, named)).collect();
    let mut subjects: Vec<Subject> =
        subjects?.into_iter().filter(|s| s.has_edits() || !s.bad.is_empty() || s.left > 0).collect();
    subjects.sort_by_key(|subject| std::cmp::Reverse(subject.files.values().map(String::len).sum::<usize>()));
    Ok(subjects)
}

/// Whether the edit is one that is to be tried: all of a crate that is named are, or no crate at all.
fn is_named(krate: &str, edit: &str, named: &[String]) -> bool {
    named.is_empty() || named.iter().any(|name| name == krate || name.split_once('/') == Some((krate, edit)))
}

impl Subject {
    fn of(root: &Path, krate: Listed, named: &[String]) -> Result<Subject, String> {
        let folder = root.join("crates").join(&krate.name);
        let files = listed::files(&folder)?;
        let (mut edits, mut bad, mut left) = (Vec::new(), Vec::new(), 0);
        let sources = Sources::of(&krate.name, &files);
        for edit in edit::of_crate(&folder)?.into_iter().filter(|edit| is_named(&krate.name, &edit.name, named)) {
            match tried(&edit, &files, &sources) {
                Ok(Some(tried)) => edits.push(tried),
                Ok(None) => left += 1,
                Err(why) => bad.push(format!("{}/{}: BAD EDIT: {why}", krate.name, edit.name)),
            }
        }
        Ok(Subject { krate, files, edits, bad, left, names: Mutex::default() })
    }

    pub fn has_edits(&self) -> bool {
        !self.edits.is_empty()
    }

    /// A round of no edit.
    pub fn as_it_stands(&self) -> Round<'_> {
        self.round("as_it_stands", Vec::new())
    }

    pub fn rounds(&self) -> Vec<Round<'_>> {
        let wrongs: Vec<&Wrong> = self.edits.iter().map(|tried| &tried.wrong).collect();
        let sources = Sources::of(&self.krate.name, &self.files);
        let uses = |user: &str, used: &str| sources.uses(user, used);
        let waits = |user: &str, used: &str| sources.waits(user, used);
        let numbered = rounds(&wrongs, uses, waits).into_iter().enumerate();
        let round = |(index, edits): (usize, Vec<usize>)| match edits.as_slice() {
            [edit] => self.alone(*edit),
            _ => self.round(&format!("round_{}", index + 1), edits),
        };
        numbered.map(round).collect()
    }

    fn alone(&self, edit: usize) -> Round<'_> {
        self.round(&self.edits[edit].name, vec![edit])
    }

    fn round(&self, label: &str, edits: Vec<usize>) -> Round<'_> {
        Round { subject: self, label: label.to_string(), edits, is_renamed: false }
    }

    /// The names of a function as it stands. They are asked for once; who comes meanwhile waits.
    fn names(&self, checker: &Checker, function: &str) -> std::io::Result<Arc<Names>> {
        let place =
            self.names.lock().expect("no other worker has panicked").entry(function.to_string()).or_default().clone();
        let mut known = place.lock().expect("no other worker has panicked");
        if let Some(names) = known.as_ref() {
            return Ok(names.clone());
        }
        let label = format!("names_of_{}", function.replace("::", "_"));
        let names = Arc::new(checker.names(&self.krate, &self.files, function, &label)?);
        *known = Some(names.clone());
        Ok(names)
    }
}

/// The edit as it is tried; none if it is left to the kit. Only such an edit may change the operations of a body.
fn tried(edit: &Edit, files: &Files, sources: &Sources) -> Result<Option<Tried>, String> {
    let places = edit.places(files)?;
    let wrong = sources.wrong(&places)?;
    let has_other_operations = matches!(wrong, Wrong::Bodies(_)) && !edit.keeps_operations();
    match (has_other_operations, edit.is_of_kit) {
        (false, _) => Ok(Some(Tried { name: edit.name.clone(), places, wrong })),
        (true, true) => Ok(None),
        (true, false) => Err("it changes the operations: a right body with those would be refused too".to_string()),
    }
}

impl<'a> Round<'a> {
    pub fn check(&self, checker: &Checker) -> Result<Checked, String> {
        let edits = self.edits.iter().map(|edit| &self.subject.edits[*edit]);
        let places: Vec<Place> = edits.flat_map(|tried| tried.places.clone()).collect();
        let mut files = edit::applied(&self.subject.files, &places);
        let fault = |fault| format!("{}, {}: {fault}", self.subject.krate.name, self.label);
        if self.is_renamed {
            files = self.renamed(checker, files).map_err(fault)?;
        }
        checker.check(&self.subject.krate, &files, &self.label).map_err(fault)
    }

    /// The edited files, with the proofs of the edited functions in the names that the edit gives.
    fn renamed(&self, checker: &Checker, mut files: Files) -> std::io::Result<Files> {
        let sources = Sources::of(&self.subject.krate.name, &self.subject.files);
        let edits = self.edits.iter().map(|edit| &self.subject.edits[*edit].wrong);
        let names: Vec<&String> = edits.flat_map(Wrong::functions).collect();
        for function in sources.functions.iter().filter(|f| names.contains(&&f.name) && sources.has_answers(f)) {
            let label = format!("{}_names_{}", self.label, function.path().replace("::", "_"));
            let before = self.subject.names(checker, function.path())?;
            let after = checker.names(&self.subject.krate, &files, function.path(), &label)?;
            if let Some(turned) = before.turned(&after) {
                files = names::turned(&files, &function.proofs(), &turned);
            }
        }
        Ok(files)
    }

    /// Whether no edit is tried, but the crate as it stands.
    pub fn is_empty(&self) -> bool {
        self.edits.is_empty()
    }

    /// Each edit's name, with what the check shows of it.
    pub fn verdicts(&self, said: &Said) -> Vec<(String, Verdict)> {
        let sources = Sources::of(&self.subject.krate.name, &self.subject.files);
        let verdict = |edit: &usize| {
            let tried = &self.subject.edits[*edit];
            let name = format!("{}/{}", self.subject.krate.name, tried.name);
            (name, judge(&tried.wrong, said, &sources.functions))
        };
        self.edits.iter().map(verdict).collect()
    }

    /// A round for each edit that is to be tried once more: in other names, or alone after a round of several, as something that it uses may
    /// have been refused there.
    pub fn again(&self, verdicts: &[(String, Verdict)]) -> Vec<Round<'a>> {
        let several = self.edits.len() > 1;
        let again = self.edits.iter().zip(verdicts).filter_map(|(edit, (_, verdict))| match verdict {
            Verdict::OtherNames(_) if !self.is_renamed => Some(Round { is_renamed: true, ..self.subject.alone(*edit) }),
            Verdict::NotRefused(_) if several => Some(self.subject.alone(*edit)),
            _ => None,
        });
        again.collect()
    }

    /// What the report says of a round that is to come.
    pub fn to_come(&self) -> String {
        let how = if self.is_renamed { "in the names that it gives to goals" } else { "alone" };
        format!("{}/{}: to be tried {how}", self.subject.krate.name, self.label)
    }

    /// The edits of which another round is to tell.
    pub fn tells_of(&self, name: &str) -> bool {
        format!("{}/{}", self.subject.krate.name, self.label) == name
    }
}
