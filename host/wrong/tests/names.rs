//! Names of goals and steps that an edit changes, and the crates of a list.

use std::collections::BTreeMap;

use wrong::edit::Files;
use wrong::listed::listed;
use wrong::names::{turned, Names};

const GOALS: &str = "-- src/a.rt:1:1\npub returns-then-x-lt7 : goal.returns-then-x-lt7\nreturns-then-x-lt7 c = ?\n";
const VIEW: &str = "\
  pub record In-Then-x-lt7 : Type 0 where
    pub before : Lts.Then1 the-claims
    pub open before use *
  abbrev pub up-Then-x-lt7 : Then1 → In-Then-x-lt7
";
const STEPS: &str = "\
abbrev pub name-0 : List
    pub if-x-lt7 : Own-Then1 before
    pub before : Args
    pub if-x-lt7 : Own-Else1 before
";

fn names(number: &str) -> Names {
    let modules = [GOALS, VIEW, STEPS].map(|text| text.replace('7', number));
    Names::of(&modules.each_ref().map(String::as_str))
}

#[test]
fn names_of_the_same_place_are_turned() {
    let expected =
        [("Then-x-lt7", "Then-x-lt8"), ("if-x-lt7", "if-x-lt8"), ("returns-then-x-lt7", "returns-then-x-lt8")];
    let expected = expected.map(|(old, new)| (old.to_string(), new.to_string()));
    assert_eq!(names("7").turned(&names("8")), Some(BTreeMap::from(expected)));
    assert_eq!(names("7").turned(&names("7")), Some(BTreeMap::new()));
}

#[test]
fn a_type_may_stand_in_the_next_line() {
    let whole = "pub returns-7 : goal.returns-7\nabbrev pub up-7 : Lts.Then1\n";
    let cut = "pub returns-8 :\n    goal.returns-8\nabbrev pub up-8 :\n    Lts.Then1\n";
    let expected = BTreeMap::from([("returns-7".to_string(), "returns-8".to_string())]);
    assert_eq!(Names::of(&[whole]).turned(&Names::of(&[cut])), Some(expected));
}

#[test]
fn other_goals_have_no_names_to_turn() {
    let fewer = Names::of(&[GOALS, VIEW, "pub if-x-lt7 : Own-Then1 before\n"]);
    assert_eq!(names("7").turned(&fewer), None);
    // One step would have two names.
    let twice = STEPS.replacen("if-x-lt7", "if-x-lt8", 1);
    assert_eq!(names("7").turned(&Names::of(&[GOALS, VIEW, &twice])), None);
}

#[test]
fn a_proof_is_turned_word_by_word() {
    let text = "returns-then-x-lt7 c = f c.if-x-lt7.true if-x-lt7-2 (if-x-lt7)";
    let file = |folder: &str| (format!("{folder}/Answers.antt"), text.to_string());
    let files = Files::from([file("proofs/a"), file("proofs/b")]);
    let names = BTreeMap::from([("if-x-lt7".to_string(), "if-x-lt8".to_string())]);
    let now = turned(&files, "proofs/a/", &names);
    assert_eq!(now["proofs/a/Answers.antt"], "returns-then-x-lt7 c = f c.if-x-lt8.true if-x-lt7-2 (if-x-lt8)");
    assert_eq!(now["proofs/b/Answers.antt"], text);
}

#[test]
fn a_list_has_crates_and_libraries_of_the_kit() {
    let crates = listed("# all\na:\nb staticlib: a\nc max=2: b io # last\n");
    let c = &crates[2];
    assert_eq!((c.name.as_str(), c.is_static), ("c", false));
    assert_eq!((&c.uses, &c.below), (&vec!["b".to_string()], &vec!["a".to_string(), "b".to_string()]));
    assert_eq!(c.of_kit, ["std", "io"]);
    assert_eq!((crates[1].name.as_str(), crates[1].is_static), ("b", true));
}
