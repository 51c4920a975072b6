//! An edit file. A line `file: PATH` names a file of the crate for the pairs after it; a pair is a line `old: TEXT` and a
//! line `new: TEXT`. Each old text has to stand exactly once in its file. All other lines are comments.

use std::collections::BTreeMap;
use std::fs;
use std::ops::Range;
use std::path::Path;

use crate::operations::operations;

/// The files of a crate by their paths in it.
pub type Files = BTreeMap<String, String>;

/// One wrong program.
pub struct Edit {
    /// The file's name without its ending.
    pub name: String,
    /// Whether the kit tries it too.
    pub is_of_kit: bool,
    pub swaps: Vec<Swap>,
}

pub struct Swap {
    pub file: String,
    pub old: String,
    pub new: String,
}

/// Where a text stands that is replaced.
#[derive(Clone, Debug)]
pub struct Place {
    pub file: String,
    pub at: Range<usize>,
    pub new: String,
}

/// The folders of a crate that have its edits, and whether the kit tries those too.
const FOLDERS: [(&str, bool); 2] = [("must-fail", true), ("wrong", false)];

/// The crate's edits, by name.
pub fn of_crate(folder: &Path) -> Result<Vec<Edit>, String> {
    let mut edits: Vec<Edit> = Vec::new();
    let folders = FOLDERS.map(|(name, is_of_kit)| (folder.join(name), is_of_kit));
    for (part, is_of_kit) in folders.into_iter().filter(|(part, _)| part.is_dir()) {
        let entries = fs::read_dir(&part).map_err(|fault| format!("{}: {fault}", part.display()))?;
        for path in
            entries.flatten().map(|entry| entry.path()).filter(|path| path.extension().is_some_and(|e| e == "edit"))
        {
            let text = fs::read_to_string(&path).map_err(|fault| format!("{}: {fault}", path.display()))?;
            let name = path.file_stem().unwrap_or_default().to_string_lossy().into_owned();
            edits.push(Edit { name, is_of_kit, swaps: swaps(&text) });
        }
    }
    edits.sort_by(|a, b| a.name.cmp(&b.name));
    match edits.windows(2).find(|pair| pair[0].name == pair[1].name) {
        Some(pair) => Err(format!("{}: two edits have the name {}", folder.display(), pair[0].name)),
        None => Ok(edits),
    }
}

/// The pairs of the file; an old text without a new one is replaced by itself, which is no edit.
pub fn swaps(text: &str) -> Vec<Swap> {
    let mut file = String::new();
    let mut swaps: Vec<Swap> = Vec::new();
    let mut waits = false;
    for line in text.lines() {
        if let Some(path) = line.strip_prefix("file: ") {
            file = path.to_string();
        } else if let Some(old) = line.strip_prefix("old: ") {
            swaps.push(Swap { file: file.clone(), old: old.to_string(), new: old.to_string() });
            waits = true;
        } else if let Some(text) = line.strip_prefix("new:") {
            let new = text.strip_prefix(' ').unwrap_or(text).to_string();
            match swaps.last_mut().filter(|_| waits) {
                Some(swap) => swap.new = new,
                None => swaps.push(Swap { file: file.clone(), old: String::new(), new }),
            }
            waits = false;
        }
    }
    swaps
}

impl Edit {
    /// Where the edit's texts stand in the crate as it is; or why it is no edit of it.
    pub fn places(&self, files: &Files) -> Result<Vec<Place>, String> {
        if self.swaps.is_empty() {
            return Err("it has no pair of 'old:' and 'new:'".to_string());
        }
        let places: Vec<Place> = self.swaps.iter().map(|swap| swap.place(files)).collect::<Result<_, _>>()?;
        let apart = |a: &Place, b: &Place| a.file != b.file || a.at.end <= b.at.start || b.at.end <= a.at.start;
        let all_apart = places.iter().enumerate().all(|(i, a)| places[i + 1..].iter().all(|b| apart(a, b)));
        if all_apart {
            Ok(places)
        } else {
            Err("two of its 'old:' texts overlap".to_string())
        }
    }

    /// Whether the same operations are done, on other operands or in another order.
    pub fn keeps_operations(&self) -> bool {
        self.swaps.iter().all(|swap| operations(&swap.old) == operations(&swap.new))
    }
}

impl Swap {
    fn place(&self, files: &Files) -> Result<Place, String> {
        let Swap { file, old, new } = self;
        if !file.starts_with("src/") && !file.starts_with("specs/") {
            return Err(format!("'{file}' is no file below src/ or specs/"));
        }
        let text = files.get(file).ok_or_else(|| format!("the crate has no file {file}"))?;
        if old.is_empty() || old == new {
            return Err(format!("it replaces nothing in {file}"));
        }
        let mut found = text.match_indices(old.as_str());
        match (found.next(), found.next()) {
            (Some((at, _)), None) => Ok(Place { file: file.clone(), at: at..at + old.len(), new: new.clone() }),
            (None, _) => Err(format!("'{old}' is not in {file}")),
            _ => Err(format!("'{old}' is in {file} more than once")),
        }
    }
}

/// The files with all these places replaced, which are apart.
pub fn applied(files: &Files, places: &[Place]) -> Files {
    let mut edited = files.clone();
    let mut from_the_back: Vec<&Place> = places.iter().collect();
    from_the_back.sort_by_key(|place| std::cmp::Reverse(place.at.start));
    for place in from_the_back {
        if let Some(text) = edited.get_mut(&place.file) {
            text.replace_range(place.at.clone(), &place.new);
        }
    }
    edited
}
