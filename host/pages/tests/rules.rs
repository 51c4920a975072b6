//! The rules: defined once, cited rightly, claimed.

use pages::none;
use pages::rules::{cited, claimed, defined};
use pages::tree::Tree;

const RULES: &str =
    "# Rules\n\n- **PLAN-2** Two.\n- **PLAN-1** One.\n\n| rule | what |\n|---|---|\n| **CALL-1** | one |\n";
const CLAIMS: &str = "# Claims\n\n| rule | definition |\n|---|---|\n| PLAN-1 to PLAN-2: both | `x` |\n\n\
                      - CALL-1 is the host's.\n\nNo list.\n";

/// What a check finds in a tree with these rules, these claims and one more file.
fn found(check: fn(&Tree) -> Vec<String>, rules: &str, claims: &str, file: (&str, &str)) -> Vec<String> {
    check(&Tree::of(&[("docs/RULES.md", rules), ("docs/CLAIMS.md", claims), file]))
}

fn in_file(file: &str, text: &str) -> Vec<String> {
    found(cited, RULES, CLAIMS, (file, text))
}

const NOTHING: (&str, &str) = ("README.md", "");

#[test]
fn every_rule_is_defined_once_and_no_number_is_left_out() {
    none(defined(&Tree::ours()));
}

#[test]
fn every_rule_that_is_cited_is_there() {
    none(cited(&Tree::ours()));
}

#[test]
fn every_rule_is_claimed() {
    none(claimed(&Tree::ours()));
}

#[test]
fn right_rules_have_no_finding() {
    let spec =
        ("crates/plan/specs/Plan.antt", "-- PLAN-1 to\n-- PLAN-2: both.\nx = GONE-7\n-- octet 02-00-00-00-00-AA\n");
    for check in [defined, cited, claimed] {
        none(found(check, RULES, CLAIMS, spec));
    }
    none(in_file("README.md", "UTF-8 and C-16, PLAN-1 to PLAN-2\n"));
}

#[test]
fn a_second_definition_is_found() {
    let rules = format!("{RULES}\n- **PLAN-1** Again.\n");
    let second = found(defined, &rules, CLAIMS, NOTHING);
    assert_eq!(second, ["docs/RULES.md:10: PLAN-1 stands where PLAN-2 is due"]);
}

#[test]
fn a_gap_is_found() {
    let rules = RULES.replace("CALL-1", "CALL-2");
    assert_eq!(found(defined, &rules, CLAIMS, NOTHING), ["docs/RULES.md:8: CALL-2 stands where CALL-1 is due"]);
    assert_eq!(found(defined, "PLAN-1\n", CLAIMS, NOTHING), ["docs/RULES.md:1: defines no rule"]);
}

#[test]
fn a_rule_that_is_not_there_is_found_wherever_it_is_cited() {
    assert_eq!(in_file("README.md", "one\nPLAN-3\n"), ["README.md:2: no such rule: PLAN-3"]);
    assert_eq!(in_file("docs/changes/C-1.md", "PALN-1\n"), ["docs/changes/C-1.md:1: no such rule: PALN-1"]);
    let spec = "crates/plan/specs/deep/Plan.antt";
    assert_eq!(in_file(spec, "x\n  y = 1 -- PLAN-9\n"), [format!("{spec}:2: no such rule: PLAN-9")]);
    assert_eq!(in_file("include/x.h", "/* CALL-2 */\n"), ["include/x.h:1: no such rule: CALL-2"]);
    for file in ["crates/plan/proofs/Laws.antt", "crates/plan/src/lib.rt", "host/run/cases.c"] {
        assert_eq!(in_file(file, "-- CALL-2\n"), [format!("{file}:1: no such rule: CALL-2")]);
    }
    assert_eq!(in_file("packaging/man/x.3", "CALL\\-2\n"), ["packaging/man/x.3:1: no such rule: CALL-2"]);
}

#[test]
fn a_run_past_the_rules_and_one_that_is_none_are_found() {
    assert_eq!(in_file("include/x.h", "/* PLAN-1 to\n * PLAN-3 */\n"), ["include/x.h:1: no such rule: PLAN-3"]);
    assert_eq!(in_file("README.md", "PLAN-2 to PLAN-1\n"), ["README.md:1: no run: PLAN-2 to PLAN-1"]);
    assert_eq!(in_file("README.md", "PLAN-1 to CALL-1\n"), ["README.md:1: no run: PLAN-1 to CALL-1"]);
}

#[test]
fn a_rule_that_is_not_claimed_is_found() {
    let elsewhere = CLAIMS.replace("- CALL-1", "CALL-1").replace("`x`", "CALL-1");
    let without = found(claimed, RULES, &elsewhere, NOTHING);
    assert_eq!(without, ["docs/RULES.md:8: CALL-1 has no row in docs/CLAIMS.md"]);
    let named = CLAIMS.replace("- CALL-1 is the host's.", "- PLAN-2 follows from CALL-1.");
    assert_eq!(found(claimed, RULES, &named, NOTHING), without);
    let fewer = CLAIMS.replace("PLAN-1 to PLAN-2", "PLAN-2");
    assert_eq!(found(claimed, RULES, &fewer, NOTHING), ["docs/RULES.md:4: PLAN-1 has no row in docs/CLAIMS.md"]);
}
