//! The operations of a piece of code, without what they are done on.

const KEYWORDS: [&str; 12] =
    ["as", "break", "continue", "else", "fn", "if", "let", "loop", "match", "mut", "return", "while"];
const COMPARES: [&str; 6] = ["==", "!=", "<=", ">=", "<", ">"];
const OF_TWO: [&str; 8] = ["=>", "->", "..", "&&", "||", "<<", ">>", "::"];

/// Each operation, bracket and keyword, in no order of the text's. All compares are one operation. An operand, which is a
/// number, a name, a path or a field, is counted and not named.
pub fn operations(text: &str) -> Vec<String> {
    let mut parts = Vec::new();
    let mut rest = text.trim_start();
    while !rest.is_empty() {
        let (part, behind) = rest.split_at(first(rest));
        parts.push(called(part).to_string());
        rest = behind.trim_start();
    }
    parts.sort();
    parts
}

fn called(part: &str) -> &str {
    if COMPARES.contains(&part) {
        "compare"
    } else if operand(part) > 0 && !KEYWORDS.contains(&part) {
        "operand"
    } else {
        part
    }
}

/// The length of the operand, the keyword or the sign at the front.
fn first(text: &str) -> usize {
    let sign = OF_TWO.iter().chain(&COMPARES).find(|sign| text.starts_with(**sign));
    match (operand(text), sign) {
        (0, Some(sign)) => sign.len(),
        (0, None) => text.chars().next().map_or(0, char::len_utf8),
        (length, _) => length,
    }
}

/// The length of the operand or keyword at the front; 0 if there is none.
fn operand(text: &str) -> usize {
    let mut length = word(text);
    while let Some(joint) = ["::", "."].iter().find(|joint| length > 0 && goes_on(&text[length..], joint)) {
        length += joint.len() + word(&text[length + joint.len()..]);
    }
    length
}

fn goes_on(text: &str, joint: &str) -> bool {
    text.strip_prefix(joint).is_some_and(|behind| word(behind) > 0)
}

fn word(text: &str) -> usize {
    text.find(|c: char| !c.is_alphanumeric() && c != '_').unwrap_or(text.len())
}
