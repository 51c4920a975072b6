//! What pages and man pages say of the header: each name that they use is there, and each outcome, refusal and plan fault
//! stands with its number in the tables of docs/HOST.md and, but for plan faults, of tmavolice(3).

use crate::table::tables;
use crate::tree::Tree;
use crate::words::words;

const HEADER: &str = "include/tmavolice.h";
const HOST: &str = "docs/HOST.md";
const MAN: &str = "packaging/man/tmavolice.3";
const FAMILIES: [&str; 3] = ["TMAVOLICE_OUTCOME", "TMAVOLICE_REFUSAL", "TMAVOLICE_FAULT"];
/// The families that tmavolice(3) has a table of.
const IN_MAN: usize = 2;

pub fn check(tree: &Tree) -> Vec<String> {
    let mut findings = unknown(tree);
    let (of_host, of_man) = (in_host(tree), in_man(tree));
    findings.extend(compared(tree, HOST, &FAMILIES, &of_host));
    findings.extend(compared(tree, MAN, &FAMILIES[..IN_MAN], &of_man));
    findings
}

/// Names that no header has, and no crate. One that ends in `_` stands for a family.
fn unknown(tree: &Tree) -> Vec<String> {
    let headers = tree.below("include/");
    let crates: Vec<&str> = tree.text("crates.txt").unwrap_or("").split([' ', ':', '\n']).collect();
    let known: Vec<&str> = headers.iter().flat_map(|(_, text)| words(text, "_")).map(|(_, word)| word).collect();
    let mut findings = Vec::new();
    for (file, text) in ["README.md", "docs/", "packaging/man/"].iter().flat_map(|front| tree.below(front)) {
        let named = words(text, "_").into_iter().filter(|(_, word)| word.to_lowercase().starts_with("tmavolice_"));
        let gone = named.filter(|(_, word)| !word.ends_with('_') && !known.contains(word) && !crates.contains(word));
        findings.extend(gone.map(|(line, word)| format!("{file}:{line}: no header has {word}")));
    }
    findings
}

/// Does a page give these numbers, and no others, to the names of these families? NONE is not told.
fn compared(tree: &Tree, file: &str, families: &[&str], told: &[(usize, String, String)]) -> Vec<String> {
    let defined = constants(tree.text(HEADER).unwrap_or(""), families);
    let mut findings = Vec::new();
    for (line, name, number) in told {
        if !defined.contains(&(name.clone(), number.clone())) {
            findings.push(format!("{file}:{line}: the header has not {name} = {number}"));
        }
    }
    let untold = defined.iter().filter(|(name, _)| !name.ends_with("_NONE") && told.iter().all(|(_, t, _)| t != name));
    findings.extend(untold.map(|(name, _)| format!("{file}:1: no row of {name}")));
    findings
}

/// The constants of the families with their numbers, from lines such as `NAME = 4, /* .. */`.
fn constants(header: &str, families: &[&str]) -> Vec<(String, String)> {
    let defined = header.lines().filter_map(|line| line.trim().split_once(" = "));
    let own = defined.filter(|(name, _)| families.iter().any(|family| name.starts_with(family)));
    own.map(|(name, rest)| (name.to_string(), rest.chars().take_while(char::is_ascii_digit).collect())).collect()
}

/// The rows of the page that begin with a name and a number, in either order.
fn in_host(tree: &Tree) -> Vec<(usize, String, String)> {
    let mut told = Vec::new();
    for row in tables(&tree.page(HOST)).iter().flat_map(|table| &table.rows) {
        let parts: Vec<&str> = row.cell(0).split(' ').map(|part| part.trim_matches('`')).collect();
        match parts.as_slice() {
            [name, number] if name.starts_with("TMAVOLICE_") => {
                told.push((row.line, name.to_string(), number.to_string()))
            }
            [number, name] if name.starts_with("TMAVOLICE_") => {
                told.push((row.line, name.to_string(), number.to_string()))
            }
            _ => {}
        }
    }
    told
}

/// The rows of the man page, as `4 _REPLY|T{` below a row with the family.
fn in_man(tree: &Tree) -> Vec<(usize, String, String)> {
    let mut told = Vec::new();
    let mut family = "";
    for (at, line) in tree.text(MAN).unwrap_or("").lines().enumerate() {
        let first = line.split('|').next().unwrap_or("");
        if let Some(named) = first.strip_prefix("\\fBTMAVOLICE").and_then(|rest| rest.strip_suffix("\\fR")) {
            family = named;
        } else if let Some((number, name)) = first.split_once(" _").filter(|_| line.ends_with("|T{")) {
            told.push((at + 1, format!("TMAVOLICE{family}_{name}"), number.to_string()));
        }
    }
    told
}
