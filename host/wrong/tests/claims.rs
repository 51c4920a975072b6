//! docs/CLAIMS.md and the wrong programs: each that a row names is there, and each that is there stands in a row.

use std::collections::BTreeSet;
use std::fs;
use std::path::Path;

use wrong::{edit, listed};

const HEAD: [&str; 2] = ["wrong programs", "---"];

/// The last cell of each row: `CRATE NAME, NAME; CRATE NAME`.
fn named(claims: &str) -> BTreeSet<String> {
    let rows = claims.lines().filter_map(|line| line.strip_suffix('|')?.rsplit('|').next());
    let cells = rows.map(str::trim).filter(|cell| !cell.is_empty() && !HEAD.contains(cell));
    cells.flat_map(|cell| cell.split("; ")).flat_map(of_crate).collect()
}

fn of_crate(part: &str) -> Vec<String> {
    let (krate, names) = part.split_once(' ').unwrap_or((part, ""));
    names.split(", ").map(|name| format!("{krate}/{name}")).collect()
}

fn there(root: &Path) -> BTreeSet<String> {
    let mut all = BTreeSet::new();
    for krate in listed::crates(root).expect("there is a crates.txt") {
        let edits = edit::of_crate(&root.join("crates").join(&krate.name)).expect("edits can be read");
        all.extend(edits.into_iter().map(|edit| format!("{}/{}", krate.name, edit.name)));
    }
    all
}

#[test]
fn claims_name_each_wrong_program() {
    let root = Path::new(env!("CARGO_MANIFEST_DIR")).join("../..");
    let claims = fs::read_to_string(root.join("docs/CLAIMS.md")).expect("there is a docs/CLAIMS.md");
    let (named, there) = (named(&claims), there(&root));
    assert_eq!(named.difference(&there).collect::<Vec<_>>(), Vec::<&String>::new(), "named, and not there");
    assert_eq!(there.difference(&named).collect::<Vec<_>>(), Vec::<&String>::new(), "there, and in no row");
}
