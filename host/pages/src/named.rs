//! Names in backquotes with parentheses behind them, as in `levels`, `groups` (calls, proofs/Mps).

use std::ops::Range;

use crate::code;

pub struct Named<'a> {
    pub at: usize,
    /// The name before the parentheses, and those of the run that ends with it.
    pub last: &'a str,
    pub others: Vec<&'a str>,
    /// What stands between the parentheses.
    pub place: &'a str,
}

/// Every code span that has parentheses behind it, in order.
pub fn named(text: &str) -> Vec<Named<'_>> {
    let spans = code::spans(text);
    let plain = code::without(text);
    // of an application, as `hex "80 39"`, the function
    let name = |span: &Range<usize>| text[span.clone()].split(' ').next().unwrap_or("");
    let mut all = Vec::new();
    for (last, span) in spans.iter().enumerate() {
        let behind = plain[span.end + 1..].trim_start();
        let Some((inside, _)) = behind.strip_prefix('(').and_then(|rest| rest.split_once(')')) else { continue };
        let open = plain.len() - behind.len();
        let first = (1..=last).rev().find(|at| !joined(text, &spans[at - 1], &spans[*at])).unwrap_or(0);
        let others = spans[first..last].iter().map(name).collect();
        all.push(Named { at: span.start, last: name(span), others, place: &text[open + 1..][..inside.len()] });
    }
    all
}

/// Are the two of one run? In `a`, by `b` (codec src/pdu.rt) the place is that of both.
fn joined(text: &str, one: &Range<usize>, next: &Range<usize>) -> bool {
    let between: Vec<&str> = text[one.end + 1..next.start - 1].split_whitespace().collect();
    matches!(between.as_slice(), [] | [","] | ["and"] | [",", "and" | "by"])
}
