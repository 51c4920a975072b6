//! The pages, kept right: their links lead somewhere, the files, rules, names and numbers that they speak of are there,
//! and the pages for hosts use the words of the field. Each check takes a tree and gives findings, a line each; the
//! tests ask that there are none, and that a slip of each kind is found.

#![forbid(unsafe_code)]

pub mod code;
pub mod commands;
pub mod edits;
pub mod header;
pub mod links;
pub mod lookup;
pub mod named;
pub mod names;
pub mod needs;
pub mod page;
pub mod paths;
pub mod requirements;
pub mod rooms;
pub mod rule;
pub mod rules;
pub mod table;
pub mod tree;
pub mod trust;
pub mod version;
pub mod words;

/// Fails, with every finding, unless there is none.
pub fn none(findings: Vec<String>) {
    assert!(findings.is_empty(), "{} found:\n{}", findings.len(), findings.join("\n"));
}
