//! Each name that a page gives a place is defined there. The forms of a place, behind one name or a run of them:
//!
//!     calls                           a crate
//!     crates/shift                    the same
//!     calls Frame                     a file of specs/ or proofs/
//!     calls, Frame                    the same
//!     calls, proofs/Mps               a file of that folder
//!     codec src/pdu.rt                a file of the code, where a function has its promise
//!     calls, Frame; demands, Frame    several places; the name is in each
//!
//! Anything else is words, unless it looks like a place.

use std::collections::BTreeSet;

use crate::lookup::{fault, Place};
use crate::named::{named, Named};
use crate::page::Kind;
use crate::tree::Tree;

/// A name that has had a place of its own, in this row or below this heading, may stand in a run at another.
pub fn check(tree: &Tree) -> Vec<String> {
    let mut placed: BTreeSet<String> = BTreeSet::new();
    tree.in_blocks(|block| {
        if matches!(block.kind, Kind::Heading | Kind::Row) {
            placed.clear();
        }
        let mut found = Vec::new();
        for Named { at, last, others, place } in named(&block.text) {
            if place.split(';').any(|part| looks_like_a_place(tree, part)) {
                let own = others.into_iter().filter(|name| !placed.contains(*name));
                let names: Vec<&str> = own.chain([last]).collect();
                let faults = place.split(';').flat_map(|part| faults(tree, part, &names));
                found.extend(faults.map(|what| (at, what)));
                placed.insert(last.to_string());
            }
        }
        found
    })
}

fn faults(tree: &Tree, part: &str, names: &[&str]) -> Vec<String> {
    match place(tree, &words(part)) {
        Some(place) => names.iter().filter_map(|name| fault(tree, &place, name)).collect(),
        None => vec![format!("no place that can be read: ({})", part.trim())],
    }
}

fn words(part: &str) -> Vec<&str> {
    part.split([' ', ',', '\n']).filter(|word| !word.is_empty()).collect()
}

fn place<'a>(tree: &Tree, words: &[&'a str]) -> Option<Place<'a>> {
    let (krate, file) = match words {
        [krate] => (krate, None),
        [krate, file] if is_file(file) => (krate, Some(*file)),
        _ => return None,
    };
    let krate = krate.strip_prefix("crates/").unwrap_or(krate);
    is_crate(tree, krate).then_some(Place { krate, file })
}

/// Is it a place, or one with a slip in it?
fn looks_like_a_place(tree: &Tree, part: &str) -> bool {
    let is_name_of_file =
        |word: &str| tree.below("crates/").iter().any(|(path, _)| path.ends_with(&format!("/{word}.antt")));
    match words(part).as_slice() {
        [] => false,
        [first, ..] if is_crate(tree, first.trim_end_matches(':')) => true,
        [word] => word.contains(['/', '_']) && !word.contains('`'),
        [_, word] if part.contains(',') && is_file(word) => true,
        [_, word, ..] => word.contains('/') || is_name_of_file(word),
    }
}

fn is_crate(tree: &Tree, word: &str) -> bool {
    tree.is_folder(&format!("crates/{word}"))
}

/// `Frame`, `Examples/Lines`, `proofs/Mps`, `src/pdu.rt`.
fn is_file(word: &str) -> bool {
    let letters = word.chars().all(|c| c.is_ascii_alphanumeric() || "_/.".contains(c));
    letters && (word.contains('/') || word.starts_with(|c: char| c.is_ascii_uppercase()))
}
