//! Every link leads to a file of the tree and to a heading that it has; every label has one definition, which is used.
//! Links are `[text](target)` and `[label]`, and none leads out of the tree.

use crate::code;
use crate::page::{Kind, Page};
use crate::tree::Tree;

pub fn check(tree: &Tree) -> Vec<String> {
    tree.pages().iter().flat_map(|page| of_page(tree, page)).collect()
}

fn of_page(tree: &Tree, page: &Page) -> Vec<String> {
    let (mut targets, mut used, mut defined) = (Vec::new(), Vec::new(), Vec::new());
    for block in page.blocks.iter().filter(|block| block.kind != Kind::Code) {
        if let Some((name, target)) = block.text.split_once("]: ").filter(|_| block.kind == Kind::Definition) {
            defined.push((block.line, label(name)));
            targets.push((block.line, target.to_string()));
            continue;
        }
        for (at, text, target) in links(&block.text) {
            match target {
                Some(target) => targets.push((block.line_at(at), target)),
                None => used.push((block.line_at(at), label(&text))),
            }
        }
    }
    let mut faults: Vec<(usize, String)> = Vec::new();
    faults.extend(targets.iter().filter_map(|(line, target)| Some((*line, fault(tree, &page.file, target)?))));
    faults.extend(unpaired(&used, &defined));
    faults.iter().map(|(line, what)| format!("{}:{line}: {what}", page.file)).collect()
}

/// Each link with where it stands: its text, and its target if it has one. Code has none.
fn links(text: &str) -> Vec<(usize, String, Option<String>)> {
    let plain = code::without(text);
    let mut links = Vec::new();
    for (at, _) in plain.match_indices('[') {
        let Some((inside, behind)) = plain[at + 1..].split_once(']') else { continue };
        let target = behind.strip_prefix('(').and_then(|rest| rest.split(')').next());
        links.push((at, text[at + 1..][..inside.len()].to_string(), target.map(str::to_string)));
    }
    links
}

/// Labels are the same whatever their case and wherever their lines are broken.
fn label(text: &str) -> String {
    text.trim_start_matches('[').split_whitespace().collect::<Vec<_>>().join(" ").to_lowercase()
}

/// Labels without a definition, and definitions that nothing uses or that are not the first.
fn unpaired(used: &[(usize, String)], defined: &[(usize, String)]) -> Vec<(usize, String)> {
    let has = |labels: &[(usize, String)], label: &str| labels.iter().any(|(_, other)| other == label);
    let mut faults = Vec::new();
    for (line, label) in used.iter().filter(|(_, label)| !has(defined, label)) {
        faults.push((*line, format!("no definition of [{label}]")));
    }
    for (at, (line, label)) in defined.iter().enumerate() {
        if has(&defined[..at], label) {
            faults.push((*line, format!("defined twice: [{label}]")));
        }
        if !has(used, label) {
            faults.push((*line, format!("nothing uses [{label}]")));
        }
    }
    faults
}

/// What is wrong with a target of a page's link, if anything is.
fn fault(tree: &Tree, from: &str, target: &str) -> Option<String> {
    let (file, anchor) = match target.split_once('#') {
        Some(("", anchor)) => (Some(from.to_string()), Some(anchor)),
        Some((path, anchor)) => (resolved(from, path), Some(anchor)),
        None => (resolved(from, target), None),
    };
    let Some(file) = file.filter(|file| tree.text(file).is_some()) else {
        return Some(format!("no such file: {target}"));
    };
    let page = tree.page(&file);
    let there = |wanted| page.of_kind(Kind::Heading).any(|heading| anchor_of(heading.title()) == wanted);
    (!anchor.is_none_or(there)).then(|| format!("no such heading: {target}"))
}

/// A path from the folder of a page, as a path from the root; none if it leads out of the tree.
fn resolved(from: &str, path: &str) -> Option<String> {
    let mut parts: Vec<&str> = from.split('/').collect();
    parts.pop();
    for part in path.split('/') {
        if part == ".." {
            parts.pop()?;
        } else {
            parts.push(part);
        }
    }
    Some(parts.join("/"))
}

/// As GitHub makes it: letters in lower case, digits, `-` and `_` stay, a blank becomes `-`, all else goes.
fn anchor_of(heading: &str) -> String {
    let kept = heading.to_lowercase().replace(' ', "-");
    kept.chars().filter(|c| c.is_alphanumeric() || "-_".contains(*c)).collect()
}
