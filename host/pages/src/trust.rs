//! The tables of docs/TRUST.md that say which definitions to read: their files are there, and have so many lines.

use std::collections::BTreeSet;

use crate::table::tables;
use crate::tree::Tree;

const TRUST: &str = "docs/TRUST.md";
const HEADER: [&str; 3] = ["read", "files", "lines"];
/// The files whose promises the first table is for.
const ENTRIES: [&str; 2] = ["crates/tmavolice/src/entries.rt", "crates/tmavolice/src/make.rt"];

pub fn check(tree: &Tree) -> Vec<String> {
    let mut findings = Vec::new();
    let mut rows = 0;
    for row in tables(&tree.page(TRUST)).iter().filter(|table| table.header.cells == HEADER).flat_map(|t| &t.rows) {
        rows += 1;
        let mut lines = 0;
        for file in files(row.cell(1)) {
            match tree.text(&file) {
                Some(text) => lines += text.lines().count(),
                None => findings.push(format!("{TRUST}:{}: no such file: {file}", row.line)),
            }
        }
        if row.cell(2).replace(',', "") != lines.to_string() {
            let (files, said) = (row.cell(1), row.cell(2));
            findings.push(format!("{TRUST}:{}: {files}: {said} lines are said, the files have {lines}", row.line));
        }
    }
    if rows == 0 {
        findings.push(format!("{TRUST}:1: no table of files and lines"));
    }
    findings
}

/// The paths in `codec FrameSet, Request; codec_tlvs Tlv`.
fn files(cell: &str) -> Vec<String> {
    let mut files = Vec::new();
    for part in cell.split("; ") {
        let (krate, names) = part.split_once(' ').unwrap_or((part, ""));
        files.extend(names.split(", ").map(|name| format!("crates/{krate}/specs/{name}.antt")));
    }
    files
}

/// The first table has all files of definitions that the promises of the C entries rest on, and no other.
pub fn complete(tree: &Tree) -> Vec<String> {
    let tables = tables(&tree.page(TRUST));
    let first = tables.iter().find(|table| table.header.cells == HEADER);
    let listed: BTreeSet<String> = first.iter().flat_map(|t| &t.rows).flat_map(|row| files(row.cell(1))).collect();
    let mut reached = BTreeSet::new();
    let mut next: Vec<String> = ENTRIES.iter().flat_map(|file| uses(tree, file)).collect();
    while let Some(file) = next.pop() {
        next.extend(uses(tree, &file).into_iter().filter(|_| !reached.contains(&file)));
        reached.insert(file);
    }
    let missing = reached.difference(&listed).map(|file| format!("{TRUST}:1: does not list {file}"));
    missing.chain(listed.difference(&reached).map(|file| format!("{TRUST}:1: no entry rests on {file}"))).collect()
}

/// The files of this tree that a file takes definitions from, as `use Rattle.calls.specs.Frame.{pdu}`. Types of the code are declared
/// there. What is of the kit, as Rattle.std, is no file of the tree.
fn uses(tree: &Tree, file: &str) -> Vec<String> {
    let lines = tree.text(file).unwrap_or("").lines().filter_map(|line| line.split_once("use Rattle."));
    let paths = lines.filter_map(|(_, path)| path.split_once(".{")?.0.split_once(".specs."));
    let own = paths.filter(|(krate, name)| !name.starts_with("declared.") && tree.is_folder(&format!("crates/{krate}")));
    own.map(|(krate, name)| format!("crates/{krate}/specs/{}.antt", name.replace('.', "/"))).collect()
}
