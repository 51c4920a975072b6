//! docs/RULES.md defines each rule once, at the head of a list item or in the first cell of a row. Every rule that is
//! cited is there, and every rule that is there is claimed in docs/CLAIMS.md.

use std::collections::BTreeSet;

use crate::page::Kind;
use crate::rule::{citations, rule, Rule};
use crate::table::cells;
use crate::tree::Tree;

const RULES: &str = "docs/RULES.md";
const CLAIMS: &str = "docs/CLAIMS.md";
/// What has the form of a rule's number and is none.
const OTHER: [&str; 3] = ["UTF", "RFC", "ISO"];

/// Each definition with its line.
fn definitions(tree: &Tree) -> Vec<(Rule, usize)> {
    let page = tree.page(RULES);
    let heads = page.blocks.iter().filter(|block| matches!(block.kind, Kind::Item | Kind::Row));
    heads.filter_map(|block| Some((head(&block.text)?, block.line))).collect()
}

/// The rule in bold at the head of an item or a row.
fn head(text: &str) -> Option<Rule> {
    let bold = text.trim_start().trim_start_matches(['-', '|']).trim_start().strip_prefix("**")?;
    rule(bold.split_once("**")?.0)
}

/// Each rule is defined once, and the numbers of a prefix have no gaps.
pub fn defined(tree: &Tree) -> Vec<String> {
    let mut definitions = definitions(tree);
    definitions.sort();
    let mut findings = Vec::new();
    let mut due = Rule { prefix: String::new(), number: 1 };
    for (rule, line) in definitions {
        if rule.prefix != due.prefix {
            due = Rule { prefix: rule.prefix.clone(), number: 1 };
        }
        if rule != due {
            findings.push(format!("{RULES}:{line}: {rule} stands where {due} is due"));
        }
        due.number = rule.number + 1;
    }
    if due.prefix.is_empty() {
        findings.push(format!("{RULES}:1: defines no rule"));
    }
    findings
}

/// Each rule that is cited exists.
pub fn cited(tree: &Tree) -> Vec<String> {
    let rules: BTreeSet<Rule> = definitions(tree).into_iter().map(|(rule, _)| rule).collect();
    let mut findings = Vec::new();
    for (file, text) in citing(tree) {
        for citation in citations(&text).iter().filter(|citation| !OTHER.contains(&citation.first.prefix.as_str())) {
            let cited = citation.rules();
            if cited.is_empty() {
                findings.push(format!("{file}:{}: no run: {} to {}", citation.line, citation.first, citation.last));
            }
            let missing = cited.iter().filter(|rule| !rules.contains(rule));
            findings.extend(missing.map(|rule| format!("{file}:{}: no such rule: {rule}", citation.line)));
        }
    }
    findings
}

/// The texts that cite rules, line by line as in their files: pages, comments of definitions and proofs, code, headers and man
/// pages.
fn citing(tree: &Tree) -> Vec<(String, String)> {
    let mut texts: Vec<(String, String)> = tree.pages().into_iter().map(|page| (page.file, page.text)).collect();
    for (file, text) in tree.below("") {
        let text = match file.split('/').collect::<Vec<_>>().as_slice() {
            ["crates", _, "specs" | "proofs", ..] => comments(text),
            // rules that are made up stand in the tests of this crate alone
            ["host", folder, ..] if *folder == "pages" => continue,
            ["crates", _, "src", ..] | ["host", ..] | ["include", ..] => text.to_string(),
            // a hyphen is written with a stroke before it there, or without
            ["packaging", "man", ..] => text.replace("\\-", "-"),
            _ => continue,
        };
        texts.push((file.to_string(), text));
    }
    texts
}

/// The lines without what stands before `--`.
fn comments(text: &str) -> String {
    let lines = text.lines().map(|line| line.split_once("--").map_or("", |(_, comment)| comment));
    lines.collect::<Vec<_>>().join("\n")
}

/// Each rule stands in the first cell of a row of docs/CLAIMS.md, or in the page's last list.
pub fn claimed(tree: &Tree) -> Vec<String> {
    let page = tree.page(CLAIMS);
    let rows = page.of_kind(Kind::Row).filter_map(|block| cells(&block.text).into_iter().next());
    let from_behind = page.blocks.iter().rev().skip_while(|block| block.kind != Kind::Item);
    let last_list = from_behind.take_while(|block| block.kind == Kind::Item);
    // an item is of the rule that it names first
    let items = last_list.flat_map(|block| citations(&block.text).into_iter().take(1));
    let cited = rows.flat_map(|text| citations(&text)).chain(items);
    let claimed: BTreeSet<Rule> = cited.flat_map(|citation| citation.rules()).collect();
    let without = definitions(tree).into_iter().filter(|(rule, _)| !claimed.contains(rule));
    without.map(|(rule, line)| format!("{RULES}:{line}: {rule} has no row in {CLAIMS}")).collect()
}
