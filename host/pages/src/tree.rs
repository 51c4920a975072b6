//! The files of the repository, by their paths from its root.

use std::collections::BTreeMap;
use std::path::Path;
use std::{fs, io};

use crate::page::{Block, Page};

/// Folders that are made, and no part of the tree; `out` is what rt keeps of a crate.
const LEFT_OUT: [&str; 3] = ["target", "out", ".git"];

pub struct Tree {
    files: BTreeMap<String, String>,
}

impl Tree {
    /// The tree that this crate is a part of.
    pub fn ours() -> Tree {
        let mut files = BTreeMap::new();
        let root = Path::new(env!("CARGO_MANIFEST_DIR")).join("../..");
        collect(&root, "", &mut files).expect("the tree can be read");
        Tree { files }
    }

    /// A small one, made up: paths and texts.
    pub fn of(files: &[(&str, &str)]) -> Tree {
        Tree { files: files.iter().map(|(path, text)| (path.to_string(), text.to_string())).collect() }
    }

    pub fn text(&self, path: &str) -> Option<&str> {
        self.files.get(path).map(String::as_str)
    }

    pub fn is_folder(&self, path: &str) -> bool {
        !self.below(&format!("{path}/")).is_empty()
    }

    /// The files whose paths begin so, with their texts.
    pub fn below(&self, front: &str) -> Vec<(&str, &str)> {
        let files = self.files.iter().filter(|(path, _)| path.starts_with(front));
        files.map(|(path, text)| (path.as_str(), text.as_str())).collect()
    }

    /// One that is not there is empty.
    pub fn page(&self, path: &str) -> Page {
        Page::read(path, self.text(path).unwrap_or(""))
    }

    /// The pages that are checked: those at the root, and those in docs/.
    pub fn pages(&self) -> Vec<Page> {
        let is_page = |path: &&String| path.ends_with(".md") && (path.starts_with("docs/") || !path.contains('/'));
        self.files.keys().filter(is_page).map(|path| self.page(path)).collect()
    }

    /// What is wrong in the blocks of the pages: where in the block's text, and what.
    pub fn in_blocks(&self, mut faults: impl FnMut(&Block) -> Vec<(usize, String)>) -> Vec<String> {
        let mut findings = Vec::new();
        for page in self.pages() {
            for block in &page.blocks {
                let found = faults(block).into_iter();
                findings.extend(found.map(|(at, what)| format!("{}:{}: {what}", page.file, block.line_at(at))));
            }
        }
        findings
    }
}

fn collect(folder: &Path, front: &str, files: &mut BTreeMap<String, String>) -> io::Result<()> {
    for entry in fs::read_dir(folder)? {
        let entry = entry?;
        let name = entry.file_name().to_string_lossy().into_owned();
        let path = format!("{front}{name}");
        let kind = entry.file_type()?;
        if kind.is_dir() && !LEFT_OUT.contains(&name.as_str()) {
            collect(&entry.path(), &format!("{path}/"), files)?;
        } else if kind.is_file() {
            files.insert(path, String::from_utf8_lossy(&fs::read(entry.path())?).into_owned());
        }
    }
    Ok(())
}
