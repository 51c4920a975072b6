//! How many wrong programs there are, as docs/CLAIMS.md and docs/TRUST.md say it.

use crate::needs::says;
use crate::tree::Tree;

pub fn check(tree: &Tree) -> Vec<String> {
    let edits: Vec<&str> =
        tree.below("crates/").into_iter().filter(|(path, _)| path.ends_with(".edit")).map(|(_, text)| text).collect();
    let of = |text: &str, front: &str| text.lines().any(|line| line.starts_with(&format!("file: {front}")));
    let specs = edits.iter().filter(|text| of(text, "specs/")).count();
    let both = edits.iter().filter(|text| of(text, "specs/") && of(text, "src/")).count();
    let (all, src) = (edits.len(), edits.len() - specs);
    let wanted = [
        ("docs/CLAIMS.md", format!("Of the {all}, {specs} edit a definition (a file of specs/), {both} of these the code as well; the other {src} edit")),
        ("docs/TRUST.md", format!("{specs} edits of a definition ({both} of them with the code changed alike)")),
        ("docs/TRUST.md", format!("({src} more edit code or a promise")),
        ("docs/DECISIONS.md", format!("all {all} wrong programs")),
    ];
    let unsaid = wanted.iter().filter(|(page, words)| !says(tree, page, words));
    unsaid.map(|(page, words)| format!("{page}:1: does not say: {words}")).collect()
}
