//! docs/MEF46.md has one row for each requirement of MEF 46, and its count is that of the rows, those without a number
//! too. README.md says how many differ.

use crate::table::{tables, Row, Table};
use crate::tree::Tree;

const MEF46: &str = "docs/MEF46.md";
const README: &str = "README.md";
/// How many there are of each letter.
const NUMBERED: [(char, u32); 2] = [('R', 45), ('D', 5)];
/// The rows of the count.
const COUNTED: [&str; 5] = ["R", "D", "O", "all", UNNUMBERED];
const UNNUMBERED: &str = "without a number";
const DIFFERS: &str = "differs";

pub fn check(tree: &Tree) -> Vec<String> {
    let tables = tables(&tree.page(MEF46));
    // an example of a row stands under a heading that is no section of MEF 46
    let of_section = |table: &&Table| table.heading.starts_with(|c: char| c.is_ascii_digit());
    let own = tables.iter().filter(of_section).filter(|table| table.header.cell(0) == "no.");
    let rows: Vec<&Row> = own.flat_map(|table| &table.rows).collect();
    let beside = tables.iter().filter(|table| table.header.cell(0) == "MEF 46");
    let unnumbered: Vec<&Row> = beside.flat_map(|table| &table.rows).collect();
    let mut findings = numbered(&rows);
    match tables.iter().find(|table| table.header.cells.last().is_some_and(|cell| cell == "all")) {
        Some(count) => findings.extend(counted(count, &rows, &unnumbered)),
        None => findings.push(format!("{MEF46}:1: no table with the count")),
    }
    findings.extend(told(tree, &rows, &unnumbered));
    findings
}

fn has(row: &Row, mark: &str) -> bool {
    row.cell(2) == format!("**{mark}**")
}

/// Does README.md tell how many differ?
fn told(tree: &Tree, rows: &[&Row], unnumbered: &[&Row]) -> Option<String> {
    let of_r = rows.iter().filter(|row| row.cell(0).starts_with('R') && has(row, DIFFERS)).count();
    let beside = unnumbered.iter().filter(|row| has(row, DIFFERS)).count();
    let words = format!("departs from {of_r} of 45, and from {beside} points without a number");
    let is_told = tree.text(README).unwrap_or("").contains(&words);
    (!is_told).then(|| format!("{README}:1: does not say that it {words}"))
}

/// Each number once, and no other.
fn numbered(rows: &[&Row]) -> Vec<String> {
    let all: Vec<String> = NUMBERED.iter().flat_map(|(c, most)| (1..=*most).map(move |n| format!("{c}{n}"))).collect();
    let mut findings = Vec::new();
    for number in &all {
        let lines: Vec<usize> = rows.iter().filter(|row| row.cell(0) == number).map(|row| row.line).collect();
        if lines.len() != 1 {
            findings.push(format!("{MEF46}:{}: {number} has {} rows", lines.last().unwrap_or(&1), lines.len()));
        }
    }
    for row in rows.iter().filter(|row| all.iter().all(|number| number != row.cell(0))) {
        findings.push(format!("{MEF46}:{}: no requirement: {}", row.line, row.cell(0)));
    }
    findings
}

/// Does the table count the rows by letter and mark?
fn counted(count: &Table, rows: &[&Row], unnumbered: &[&Row]) -> Vec<String> {
    let marks = &count.header.cells[1..];
    let mut findings = Vec::new();
    for row in rows.iter().chain(unnumbered).filter(|row| !marks.iter().any(|mark| mark != "all" && has(row, mark))) {
        findings.push(format!("{MEF46}:{}: {} has no mark of the count: {}", row.line, row.cell(0), row.cell(2)));
    }
    for told in &count.rows {
        let letter = told.cell(0);
        let about = about(letter, rows, unnumbered);
        for (at, mark) in marks.iter().enumerate() {
            let there = about.iter().filter(|row| mark == "all" || has(row, mark)).count();
            let said = told.cell(at + 1);
            if said != there.to_string() {
                let line = told.line;
                findings.push(format!("{MEF46}:{line}: {letter}, {mark}: {said} are said, the rows have {there}"));
            }
        }
    }
    let letters: Vec<&str> = count.rows.iter().map(|row| row.cell(0)).collect();
    if letters != COUNTED {
        findings.push(format!("{MEF46}:{}: the count has rows {letters:?}", count.header.line));
    }
    findings
}

/// The rows that a row of the count is about.
fn about<'a>(letter: &str, rows: &[&'a Row], unnumbered: &[&'a Row]) -> Vec<&'a Row> {
    match letter {
        "all" => rows.to_vec(),
        UNNUMBERED => unnumbered.to_vec(),
        _ => rows.iter().copied().filter(|row| row.cell(0).starts_with(letter)).collect(),
    }
}
