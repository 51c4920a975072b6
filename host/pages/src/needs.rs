//! What has to be there: README and TRUST name the versions of the tools, and of the kits' logic, that host/needs.sh asks
//! for.

use crate::tree::Tree;

const NEEDS: &str = "host/needs.sh";
const README: &str = "README.md";
const TRUST: &str = "docs/TRUST.md";
/// The programs that needs.sh asks for in one line.
const OTHERS: [&str; 2] = ["gcc", "g++"];

pub fn check(tree: &Tree) -> Vec<String> {
    let asked = tree.text(NEEDS).unwrap_or("");
    let mut findings = Vec::new();
    for words in tools(asked) {
        findings.extend(unsaid(tree, README, &words));
    }
    for logic in logics(asked) {
        findings.extend([README, TRUST].iter().filter_map(|page| unsaid(tree, page, &format!("logic {logic}"))));
    }
    findings
}

/// Each program with its least version, as a page says it.
fn tools(asked: &str) -> Vec<String> {
    let mut said = Vec::new();
    for needed in asked.lines().filter_map(|line| line.split_once(") need ")) {
        let words: Vec<&str> = needed.1.split(' ').collect();
        match words[0] {
            "\"$each\"" => said.extend(OTHERS.map(|name| format!("{name} {}", words[1]))),
            name => said.push(format!("{name} {}", words[1])),
        }
    }
    said
}

fn logics(asked: &str) -> Vec<&str> {
    let line = asked.lines().find_map(|line| line.strip_prefix("logics='")?.split('\'').next());
    line.map_or(vec!["is not named"], |logics| logics.split(' ').collect())
}

fn unsaid(tree: &Tree, page: &str, words: &str) -> Option<String> {
    (!says(tree, page, words)).then(|| format!("{page}:1: does not say {words}, which {NEEDS} asks for"))
}

/// Has the page these words, wherever its lines are broken, and with no digit behind them?
pub(crate) fn says(tree: &Tree, page: &str, words: &str) -> bool {
    let text = tree.text(page).unwrap_or("").split_whitespace().collect::<Vec<_>>().join(" ");
    let mut ends = text.match_indices(words).map(|(at, _)| at + words.len());
    ends.any(|end| !text[end..].starts_with(|c: char| c.is_ascii_digit()))
}
