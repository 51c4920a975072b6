//! docs/ROOMS.md has a row for each crate of crates.txt, below all that the crate uses.

use crate::table::tables;
use crate::tree::Tree;

const ROOMS: &str = "docs/ROOMS.md";
const CRATES: &str = "crates.txt";

pub fn check(tree: &Tree) -> Vec<String> {
    let crates = crates(tree.text(CRATES).unwrap_or(""));
    let mut above: Vec<&str> = Vec::new();
    let mut findings = Vec::new();
    for row in tables(&tree.page(ROOMS)).iter().filter(|table| table.header.cell(0) == "Room").flat_map(|t| &t.rows) {
        let (room, line) = (row.cell(0).trim_matches('`'), row.line);
        let Some((name, used)) = crates.iter().find(|(name, _)| *name == room) else {
            findings.push(format!("{ROOMS}:{line}: no such crate: {room}"));
            continue;
        };
        let ours = used.iter().filter(|used| crates.iter().any(|(name, _)| name == *used));
        let below = ours.filter(|used| !above.contains(used));
        findings.extend(below.map(|used| format!("{ROOMS}:{line}: {room} uses {used}, which does not stand above it")));
        above.push(name);
    }
    let missing = crates.iter().filter(|(name, _)| !above.contains(name));
    findings.extend(missing.map(|(name, _)| format!("{ROOMS}:1: no row of {name}")));
    findings
}

/// Each crate with those that it uses. A static library says so behind its name.
fn crates(text: &str) -> Vec<(&str, Vec<&str>)> {
    let lines = text.lines().filter_map(|line| line.split_once(':'));
    lines.filter_map(|(name, used)| Some((name.split_whitespace().next()?, used.split_whitespace().collect()))).collect()
}
