//! What an edit makes wrong.

use std::collections::BTreeSet;

use crate::edit::{Files, Place};
use crate::source::{self, Constant, Function};

pub enum Wrong {
    /// Bodies of these functions, or a constant that they read: the first of them that is refused shows it.
    Bodies(Vec<String>),
    /// The promise of a function.
    Promise(String),
    /// Something that definitions say.
    Definition,
}

impl Wrong {
    /// The functions that are edited.
    pub fn functions(&self) -> &[String] {
        match self {
            Wrong::Bodies(names) => names,
            Wrong::Promise(name) => std::slice::from_ref(name),
            Wrong::Definition => &[],
        }
    }
}

/// The functions of a crate, and where its constants are.
pub struct Sources<'a> {
    files: &'a Files,
    pub functions: Vec<Function>,
}

impl<'a> Sources<'a> {
    pub fn of(krate: &str, files: &'a Files) -> Sources<'a> {
        let code = files.iter().filter(|(file, _)| file.starts_with("src/"));
        Sources { files, functions: code.flat_map(|(file, text)| source::functions(krate, file, text)).collect() }
    }

    pub fn wrong(&self, places: &[Place]) -> Result<Wrong, String> {
        if places.iter().any(|place| place.file.starts_with("specs/")) {
            return Ok(Wrong::Definition);
        }
        let mut bodies = Vec::new();
        for place in places {
            match self.at(place) {
                Some(f) if place.at.start < f.body => return Ok(Wrong::Promise(f.name.clone())),
                Some(f) => bodies.push(f.name.clone()),
                None => bodies.extend(self.readers(place)?),
            }
        }
        bodies.sort();
        bodies.dedup();
        Ok(Wrong::Bodies(bodies))
    }

    /// Whether one function's text names the other.
    pub fn uses(&self, user: &str, used: &str) -> bool {
        user != used && self.named(user).is_some_and(|f| self.mentions(f, used))
    }

    /// Whether the one is not tried while the other is not proved: it has no proof of its own, and the kit looks for one only where all that
    /// the function calls is proved.
    pub fn waits(&self, user: &str, used: &str) -> bool {
        let Some(first) = self.named(user).filter(|f| !self.has_answers(f)) else {
            return false;
        };
        let mut seen = BTreeSet::from([user]);
        let mut left = vec![first];
        while let Some(f) = left.pop() {
            for g in self.functions.iter().filter(|g| self.mentions(f, &g.name)) {
                if g.name == used {
                    return user != used;
                }
                if seen.insert(g.name.as_str()) {
                    left.push(g);
                }
            }
        }
        false
    }

    fn named(&self, name: &str) -> Option<&Function> {
        self.functions.iter().find(|f| f.name == name)
    }

    fn mentions(&self, f: &Function, used: &str) -> bool {
        source::mentions(&self.files[&f.file][f.whole.clone()], used.rsplit("::").next().unwrap_or(used))
    }

    /// Whether its proof, or a part of it, stands in a file.
    pub fn has_answers(&self, f: &Function) -> bool {
        ["Answers.antt", "Proof.antt"].iter().any(|file| self.files.contains_key(&(f.proofs() + file)))
    }

    fn at(&self, place: &Place) -> Option<&Function> {
        self.functions.iter().find(|f| f.file == place.file && within(&place.at, &f.whole))
    }

    /// The functions that read the constant which is edited.
    fn readers(&self, place: &Place) -> Result<Vec<String>, String> {
        let constants = source::constants(&self.files[&place.file]);
        let edited = constants.iter().find(|constant| within(&place.at, &constant.whole));
        let Some(Constant { name, .. }) = edited else {
            return Err(format!("what it edits in {} is in no function and in no constant", place.file));
        };
        let reads = |f: &&Function| source::mentions(&self.files[&f.file][f.whole.clone()], name);
        let readers: Vec<String> = self.functions.iter().filter(reads).map(|f| f.name.clone()).collect();
        if readers.is_empty() {
            Err(format!("no function of the crate reads {name}"))
        } else {
            Ok(readers)
        }
    }
}

fn within(part: &std::ops::Range<usize>, whole: &std::ops::Range<usize>) -> bool {
    whole.start <= part.start && part.end <= whole.end
}
