//! Lines of definitions, the count of requirements, the version, the versions of tools.

use pages::tree::Tree;
use pages::{edits, needs, none, requirements, trust, version};

const TRUST: &str = "| read | files | lines |\n|---|---|---|\n| all | codec A, B; plan C | 1,003 |\n";
const HEADER: &str =
    "/* Tmavolice 1.2.3: x. */\n#define TMAVOLICE_VERSION_MAJOR 1\n#define TMAVOLICE_VERSION_MINOR 2\n#define TMAVOLICE_VERSION_PATCH 3\n\
     #define TMAVOLICE_VERSION \"1.2.3\"\n";
const CHANGES: &str = "# Changes\n\n## Unreleased\n\n## 1.2.3\n\n## 1.2.2\n";

fn of_trust(page: &str) -> Vec<String> {
    let long = "x\n".repeat(1000);
    let [a, b, c] = ["crates/codec/specs/A.antt", "crates/codec/specs/B.antt", "crates/plan/specs/C.antt"];
    trust::check(&Tree::of(&[("docs/TRUST.md", page), (a, "x\n\n"), (b, "x\n"), (c, &long)]))
}

const DOES_NOT_SAY: [&str; 2] = [
    "include/tmavolice.h:1: does not say /* Tmavolice 1.3.3:",
    "docs/MEF46.md:1: does not say describes version 1.3.3.",
];

fn of_version(header: &str, changes: &str) -> Vec<String> {
    let mef46 = ("docs/MEF46.md", "It describes version 1.2.3.\n");
    version::check(&Tree::of(&[("include/tmavolice.h", header), ("CHANGELOG.md", changes), mef46]))
}

const LOGICS: &str = "logic 0af1, logic 0af3";
const NEEDS: &str =
    "logics='0af1 0af3' # of the kits\n    cargo) need cargo 1.82 'x' ;;\n    *) need \"$each\" 9.0 'y' ;;\n";

fn of_needs(readme: &str, trust: &str) -> Vec<String> {
    needs::check(&Tree::of(&[("host/needs.sh", NEEDS), ("README.md", readme), ("docs/TRUST.md", trust)]))
}

const DEPARTS: &str = "It departs from 1 of 45, and from 1 points without a number.\n";

/// A page with all rows: R1 to R44 are met, R45 is not, and D1 to D5 are not yet; of two without a number one differs.
fn mef46() -> String {
    let mut page =
        "# MEF\n\n## Example\n\n| no. | asks | status |\n|---|---|---|\n| R1 | x | **met** |\n\n## Count\n\n\
                    | | met | differs | not yet | all |\n|---|---|---|---|---|\n| R | 44 | 1 | 0 | 45 |\n\
                    | D | 0 | 0 | 5 | 5 |\n| O | 0 | 0 | 0 | 0 |\n| all | 44 | 1 | 5 | 50 |\n\
                    | without a number | 1 | 1 | 0 | 2 |\n\n## 7.3 Rows\n\n\
                    | no. | asks | status |\n|---|---|---|\n"
            .to_string();
    (1..=44).for_each(|n| page += &format!("| R{n} | x | **met** |\n"));
    page += "| R45 | x | **differs** |\n";
    (1..=5).for_each(|n| page += &format!("| D{n} | x | **not yet** |\n"));
    page +=
        "\n## Beside\n\n| MEF 46 | says | status |\n|---|---|---|\n| 7.1 | x | **met** |\n| 7.2 | x | **differs** |\n";
    page
}

/// What is found with a part of the page replaced.
fn of_mef(old: &str, new: &str) -> Vec<String> {
    assert!(mef46().contains(old), "{old}");
    requirements::check(&Tree::of(&[("docs/MEF46.md", &mef46().replace(old, new)), ("README.md", DEPARTS)]))
}

#[test]
fn the_lines_of_the_definitions_are_as_told() {
    none(trust::check(&Tree::ours()));
}

#[test]
fn what_the_entries_rest_on_is_listed() {
    none(trust::complete(&Tree::ours()));
}

#[test]
fn a_file_too_few_or_too_many_is_found() {
    let entry = ("crates/tmavolice/src/make.rt", "ghost use Rattle.std.specs.P.{x};\nghost use Rattle.codec.specs.A.{x};\n");
    let [a, b, d] = ["crates/codec/specs/A.antt", "crates/codec/specs/B.antt", "crates/plan/specs/D.antt"];
    let of_a =
        "use Rattle.codec.specs.B.{y}\nuse Rattle.plan.specs.D.{z}\nuse Rattle.plan.specs.declared.P.{P}\n";
    let found = trust::complete(&Tree::of(&[("docs/TRUST.md", TRUST), entry, (a, of_a), (b, ""), (d, "")]));
    assert_eq!(found[0], "docs/TRUST.md:1: does not list crates/plan/specs/D.antt");
    assert_eq!(found[1..], ["docs/TRUST.md:1: no entry rests on crates/plan/specs/C.antt"]);
}

#[test]
fn the_requirements_are_counted() {
    none(requirements::check(&Tree::ours()));
}

#[test]
fn the_versions_agree() {
    none(version::check(&Tree::ours()));
}

#[test]
fn the_tools_are_named_as_they_are_asked_for() {
    none(needs::check(&Tree::ours()));
}

#[test]
fn right_numbers_have_no_finding() {
    none(of_needs("gcc 9.0 and g++\n9.0, cargo 1.82; logic 0af1, logic 0af3", LOGICS));
    none(of_trust(TRUST));
    none(of_mef("# MEF", "# MEF 46"));
    none(of_version(HEADER, CHANGES));
}

#[test]
fn wrong_lines_and_files_are_found() {
    let fewer = of_trust(&TRUST.replace("1,003", "1,002"));
    assert_eq!(fewer, ["docs/TRUST.md:3: codec A, B; plan C: 1,002 lines are said, the files have 1003"]);
    assert_eq!(of_trust(&TRUST.replace("B;", "D;"))[0], "docs/TRUST.md:3: no such file: crates/codec/specs/D.antt");
    assert_eq!(of_trust("| read | file |\n"), ["docs/TRUST.md:1: no table of files and lines"]);
}

#[test]
fn a_row_too_few_or_too_many_is_found() {
    let less = of_mef("| R7 | x | **met** |\n", "");
    assert!(less.contains(&"docs/MEF46.md:1: R7 has 0 rows".to_string()), "{less:?}");
    let twice = of_mef("| D1 |", "| D1 | x | **not yet** |\n| D1 |");
    assert!(twice.contains(&"docs/MEF46.md:69: D1 has 2 rows".to_string()), "{twice:?}");
    let more = of_mef("| D1 |", "| R46 | x | **met** |\n| D1 |");
    assert!(more.contains(&"docs/MEF46.md:68: no requirement: R46".to_string()), "{more:?}");
}

#[test]
fn a_wrong_count_is_found() {
    let one = of_mef("| all | 44 |", "| all | 43 |");
    assert_eq!(one, ["docs/MEF46.md:16: all, met: 43 are said, the rows have 44"]);
    assert_eq!(of_mef("| R9 | x | **met** |", "| R9 | x | **differs** |").len(), 5);
    let beside = of_mef("| 7.1 | x | **met** |", "| 7.1 | x | **differs** |");
    let last = "README.md:1: does not say that it departs from 1 of 45, and from 2 points without a number";
    assert_eq!((beside.len(), beside[2].as_str()), (3, last));
    let odd = of_mef("| R9 | x | **met** |", "| R9 | x | **maybe** |");
    assert!(odd.contains(&"docs/MEF46.md:31: R9 has no mark of the count: **maybe**".to_string()), "{odd:?}");
    let fewer = of_mef("| R | 44 | 1 | 0 | 45 |\n", "");
    assert_eq!(fewer, ["docs/MEF46.md:11: the count has rows [\"D\", \"O\", \"all\", \"without a number\"]"]);
    assert_eq!(of_mef("| not yet | all |", "| not yet | sum |"), ["docs/MEF46.md:1: no table with the count"]);
}

#[test]
fn versions_that_differ_are_found() {
    let parts = of_version(&HEADER.replace("MINOR 2", "MINOR 3"), &CHANGES.replace("1.2.3", "1.3.3"));
    assert_eq!(parts[0], "include/tmavolice.h:1: TMAVOLICE_VERSION is \"1.2.3\", its parts are 1.3.3");
    assert_eq!(parts[1..], DOES_NOT_SAY);
    let title = of_version(&HEADER.replace("Tmavolice 1.2.3", "Tmavolice 1.2.2"), CHANGES);
    assert_eq!(title, ["include/tmavolice.h:1: does not say /* Tmavolice 1.2.3:"]);
    let older = of_version(HEADER, &CHANGES.replace("## 1.2.3\n", ""));
    assert_eq!(older, ["CHANGELOG.md:6: 1.2.2 is the newest, the header has 1.2.3"]);
    let none = of_version(HEADER, "# Changes\n");
    assert_eq!(none, ["CHANGELOG.md:1: nothing is the newest, the header has 1.2.3"]);
    assert_eq!(of_version(&HEADER.replace("_PATCH", "_PACTH"), CHANGES).len(), 4);
    assert_eq!(of_version(&format!("{HEADER}{HEADER}"), CHANGES).len(), 4);
}

#[test]
fn tools_of_other_versions_are_found() {
    let older = of_needs("gcc 9.0, g++ 9.0, cargo 1.80, logic 0af1, logic 0af3", LOGICS);
    assert_eq!(older, ["README.md:1: does not say cargo 1.82, which host/needs.sh asks for"]);
    assert_eq!(of_needs("gcc 9.1, g++ 9.1, cargo 1.82, logic 0af1, logic 0af3", LOGICS).len(), 2);
    assert_eq!(of_needs("gcc 9.0, g++ 9.0, cargo 1.82, logic 0af3", "logic 0af1 and logic 0af2").len(), 2);
}

#[test]
fn the_wrong_programs_are_counted() {
    none(edits::check(&Tree::ours()));
    assert_eq!(edits::check(&Tree::of(&[])).len(), 4);
}
