//! Commands `make NAME` in code name a target of the root's Makefile. Outside of code "make" is a word.

use std::collections::BTreeSet;

use crate::code;
use crate::page::{Block, Kind};
use crate::tree::Tree;

/// What may stand before a command in its line.
const BEFORE: [&str; 4] = ["$ ", "; ", "&& ", ": "];

pub fn check(tree: &Tree) -> Vec<String> {
    let targets = targets(tree.text("Makefile").unwrap_or(""));
    tree.in_blocks(|block| {
        let gone = named(block).into_iter().filter(|(_, name)| !targets.contains(name));
        gone.map(|(at, name)| (at, format!("make has no target {name}"))).collect()
    })
}

/// The names of the Makefile's rules.
fn targets(makefile: &str) -> BTreeSet<&str> {
    let rules = makefile.lines().filter(|line| !line.starts_with(['\t', '.', '#']));
    let heads = rules.filter_map(|line| line.split_once(':')).filter(|(_, rest)| !rest.starts_with('='));
    heads.flat_map(|(head, _)| head.split_whitespace()).collect()
}

/// The word behind each `make` of the block's code, with where it stands.
fn named(block: &Block) -> Vec<(usize, &str)> {
    let whole = 0..block.text.len();
    let pieces = if block.kind == Kind::Code { vec![whole] } else { code::spans(&block.text) };
    let mut named = Vec::new();
    for piece in pieces {
        let code = &block.text[piece.clone()];
        for (at, make) in code.match_indices("make ").filter(|(at, _)| begins(&code[..*at])) {
            let name = code[at + make.len()..].split_whitespace().next();
            named.extend(name.map(|name| (piece.start + at, name)));
        }
    }
    named
}

/// Does a command begin behind this code?
fn begins(code: &str) -> bool {
    let line = code.rsplit('\n').next().unwrap_or("");
    line.trim().is_empty() || BEFORE.iter().any(|before| line.ends_with(before))
}
