//! The repository: crates.txt, and the files of a crate.

use std::collections::{BTreeMap, BTreeSet};
use std::fs;
use std::path::{Path, PathBuf};

use crate::edit::Files;

#[derive(Default)]
pub struct Listed {
    pub name: String,
    /// The crates of the repository that it names.
    pub uses: Vec<String>,
    /// Those, and all below them.
    pub below: Vec<String>,
    /// The libraries of the kit that it names.
    pub of_kit: Vec<String>,
    pub is_static: bool,
}

/// The folder with crates.txt: this one, or the next above it that has one.
pub fn root(from: &Path) -> Result<PathBuf, String> {
    let found = from.ancestors().find(|folder| folder.join("crates.txt").is_file());
    found.map(Path::to_path_buf).ok_or_else(|| "no crates.txt in this folder or above it".to_string())
}

/// The crates in the order of crates.txt.
pub fn crates(root: &Path) -> Result<Vec<Listed>, String> {
    let text = fs::read_to_string(root.join("crates.txt")).map_err(|fault| format!("crates.txt: {fault}"))?;
    Ok(listed(&text))
}

/// The crates of a list with lines `NAME: DEP ..`, where words may stand behind the name: `NAME staticlib: DEP ..`
pub fn listed(text: &str) -> Vec<Listed> {
    let lines: Vec<(Vec<&str>, Vec<&str>)> = text
        .lines()
        .filter_map(|line| line.split('#').next()?.split_once(':'))
        .map(|(name, uses)| (name.split_whitespace().collect(), uses.split_whitespace().collect()))
        .collect();
    let named = |words: &[&str]| words.first().copied().unwrap_or_default().to_string();
    let ours: BTreeSet<String> = lines.iter().map(|(name, _)| named(name)).collect();
    let uses = |words: &[&str], own: bool| -> Vec<String> {
        words.iter().map(|word| word.to_string()).filter(|word| ours.contains(word) == own).collect()
    };
    let direct: BTreeMap<String, Vec<String>> =
        lines.iter().map(|(name, words)| (named(name), uses(words, true))).collect();
    let one = |(name, words): &(Vec<&str>, Vec<&str>)| Listed {
        name: named(name),
        uses: uses(words, true),
        below: below(&named(name), &direct),
        of_kit: ["std".to_string()].into_iter().chain(uses(words, false)).collect(),
        is_static: name.contains(&"staticlib"),
    };
    lines.iter().map(one).collect()
}

fn below(name: &str, direct: &BTreeMap<String, Vec<String>>) -> Vec<String> {
    let mut found = BTreeSet::new();
    let mut left: Vec<String> = direct.get(name).cloned().unwrap_or_default();
    while let Some(next) = left.pop() {
        if found.insert(next.clone()) {
            left.extend(direct.get(&next).cloned().unwrap_or_default());
        }
    }
    found.into_iter().collect()
}

/// What a check reads of a crate.
pub fn files(folder: &Path) -> Result<Files, String> {
    let mut files = Files::new();
    for part in ["src", "specs", "proofs"] {
        collect(folder, &folder.join(part), &mut files).map_err(|fault| format!("{}: {fault}", folder.display()))?;
    }
    Ok(files)
}

fn collect(folder: &Path, part: &Path, files: &mut Files) -> std::io::Result<()> {
    if !part.is_dir() {
        return Ok(());
    }
    for entry in fs::read_dir(part)? {
        let path = entry?.path();
        if path.is_dir() {
            collect(folder, &path, files)?;
        } else if let Ok(name) = path.strip_prefix(folder) {
            files.insert(name.to_string_lossy().into_owned(), fs::read_to_string(&path)?);
        }
    }
    Ok(())
}
