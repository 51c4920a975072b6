//! Code spans: what stands between two backquotes.

use std::ops::Range;

use crate::page::Kind;
use crate::tree::Tree;

/// Backquotes stand in pairs: one alone turns all code behind it into text, where no name is looked for.
pub fn check(tree: &Tree) -> Vec<String> {
    tree.in_blocks(|block| {
        let alone = block.kind != Kind::Code && block.text.matches('`').count() % 2 == 1;
        alone.then(|| (0, "a backquote alone".to_string())).into_iter().collect()
    })
}

/// The spans of the text, without their backquotes.
pub fn spans(text: &str) -> Vec<Range<usize>> {
    let quotes: Vec<usize> = text.match_indices('`').map(|(at, _)| at).collect();
    quotes.chunks_exact(2).map(|pair| pair[0] + 1..pair[1]).collect()
}

/// The text with blanks in the place of its code. All else keeps its place.
pub fn without(text: &str) -> String {
    let mut rest = text.as_bytes().to_vec();
    for span in spans(text) {
        rest[span].fill(b' ');
    }
    String::from_utf8_lossy(&rest).into_owned()
}
