//! The version in the header, told five times, is that of the newest heading of CHANGELOG.md and of docs/MEF46.md.

use crate::page::Kind;
use crate::tree::Tree;

const HEADER: &str = "include/tmavolice.h";
const CHANGES: &str = "CHANGELOG.md";
const MEF46: &str = "docs/MEF46.md";
const PARTS: [&str; 3] = ["TMAVOLICE_VERSION_MAJOR", "TMAVOLICE_VERSION_MINOR", "TMAVOLICE_VERSION_PATCH"];
const WHOLE: &str = "TMAVOLICE_VERSION";

pub fn check(tree: &Tree) -> Vec<String> {
    let header = tree.text(HEADER).unwrap_or("");
    let version = PARTS.map(|part| values(header, part)).join(".");
    let whole = values(header, WHOLE);
    let mut findings = Vec::new();
    if whole != format!("\"{version}\"") {
        findings.push(format!("{HEADER}:1: {WHOLE} is {whole}, its parts are {version}"));
    }
    let page = tree.page(CHANGES);
    let newest = page.of_kind(Kind::Heading).find(|block| block.title().starts_with(|c: char| c.is_ascii_digit()));
    let (line, newest) = newest.map_or((1, "nothing"), |block| (block.line, block.title()));
    if newest != version {
        findings.push(format!("{CHANGES}:{line}: {newest} is the newest, the header has {version}"));
    }
    for (file, words) in
        [(HEADER, format!("/* Tmavolice {version}:")), (MEF46, format!("describes version {version}."))]
    {
        if !tree.text(file).unwrap_or("").contains(&words) {
            findings.push(format!("{file}:1: does not say {words}"));
        }
    }
    findings
}

/// What a macro is defined as; if it is defined more than once, all of it.
fn values(header: &str, name: &str) -> String {
    let front = format!("#define {name} ");
    header.lines().filter_map(|line| line.strip_prefix(&front)).collect::<Vec<_>>().join(" and ")
}
