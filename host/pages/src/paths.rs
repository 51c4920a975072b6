//! Paths of the tree in a text, as crates/codec/specs/Request.antt, in code or outside. A `*` stands for any name. A
//! path goes on over a colon, so that one with the number of a line is found: such numbers do not stay right.

use crate::tree::Tree;

/// The folders whose paths are told from other words. What is in target/ is made, and is not looked for.
const OURS: [&str; 5] = ["crates/", "host/", "docs/", "include/", "packaging/"];

pub fn check(tree: &Tree) -> Vec<String> {
    tree.in_blocks(|block| {
        let gone = paths(&block.text).into_iter().filter(|(_, path)| !is_there(tree, path));
        gone.map(|(at, path)| (at, format!("no such file: {path}"))).collect()
    })
}

fn paths(text: &str) -> Vec<(usize, &str)> {
    let starts = OURS.iter().flat_map(|front| text.match_indices(front)).map(|(at, _)| at);
    let own = |at: &usize| !text[..*at].ends_with(|c: char| c.is_alphanumeric() || "_-./*@".contains(c));
    starts.filter(own).map(|at| (at, path(&text[at..]))).collect()
}

/// The path that a text begins with, without what ends a sentence.
fn path(text: &str) -> &str {
    let end = text.find(|c: char| !c.is_ascii_alphanumeric() && !"_-./*:".contains(c)).unwrap_or(text.len());
    text[..end].trim_end_matches(['.', ':', '/'])
}

/// Is there a file, or a folder of one, whose path fits part by part?
fn is_there(tree: &Tree, path: &str) -> bool {
    let front = path.split('*').next().unwrap_or(path);
    tree.below(front).iter().any(|(file, _)| {
        let mut parts = file.split('/');
        path.split('/').all(|wanted| parts.next().is_some_and(|part| wanted == "*" || wanted == part))
    })
}
