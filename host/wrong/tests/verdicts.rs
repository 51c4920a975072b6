//! What counts as a refusal, in words that the checker has written.

use wrong::edit::Files;
use wrong::judge::{judge, Verdict};
use wrong::owner::{Sources, Wrong};
use wrong::said::{Said, Words};

const SOURCE: &str = "\
fn callee(a: u8) -> u8 {
    a
}

fn caller(a: u8) -> u8 {
    callee(a)
}
";

const FALSE_FACT: &str =
    "./proofs/callee/Answers.antt:23:134: error: `returns-2`: as printed, the two types first differ where one has \
`86400` (expected), right after `◌<◌`, and the other has `86401` (found)";
const ANOTHER_TYPE: &str =
    "./proofs/callee/Answers.antt:22:24: error: `returns`: expected type `c.loop-i.acc ≡ 0 → ⊥`, but this has \
type `c.loop-i.acc ≡ 1 → ⊥`";
const APART: &str =
    "./proofs/callee/Answers.antt:15:100: error: `returns`: computed as far as they go, the two types are `a ≡ b`";
const OTHER_VALUES: &str = "./proofs/Laws.antt:38:10: error: `back`: as printed, the two values first differ where one has `8` (found), at the \
start, and the other has `7` (required)";
const OTHER_INDICES: &str = "./proofs/Laws.antt:72:13: error: `sent`: computed as far as they go, the two indices differ only where one has `ts` \
(the constructor's) and the other has `us` (the expected type's)";
const TACTIC: &str =
    "./proofs/callee/Answers.antt:12:13: error: `returns`: `rw`: no occurrence of the path's left endpoint in \
the goal: write the family yourself";
const BOUND: &str =
    "./proofs/callee/Answers.antt:9:1: error: `returns`: list the missing equation with its arguments, or rewrite";
const LEFT: &str =
    "./proofs/callee/Answers.antt:8:2: error: `returns`: give a proof of that as the last argument, `rw L t`";
const UNNAMED: &str = "./proofs/callee/Answers.antt:20:15: error: `returns-then-a`: `goal.returns-then-a`: module \
`Rattle.c.proofs.callee.Goals` has no `returns-then-a` that can be named from here (names in it that begin alike: `returns`)";
const NO_STEP: &str =
    "./proofs/callee/Answers.antt:34:19: error: `returns`: record `View.In-After-f` has no field `if-a`";
const ANOTHER_GOAL: &str =
    "./proofs/callee/Proof.antt:43:5: error: `callee_spec`: expected type `tie.Need-add-wide`, but this has type \
`tie.Need-returns`";
const TWO_LINES: &str = "./proofs/callee/Answers.antt:18:29: error: `f-requires`: expected type `Put (a ++ b) (?5 c)`
  but this has type `Put (b ++ a) (?6 c)`";
const NO_STEP_IN_TWO_LINES: &str =
    "./proofs/callee/Answers.antt:20:87: error: `returns`: record `View.In-After-f` (nearest: .if-b)
  has no field `if-a`";
const UNREAD: &str = "./proofs/callee/Answers.antt:3:1: error: expected the end of the line";
const NO_CLAUSE: &str = "./src/lib.rt:2:9: error: `callee`: expected type `ℕ`, but this has type `Bool`";
const USED: &str = "./proofs/caller/Answers.antt:28:5: error: 1 declaration that depends on `law`, which was rejected, was not checked: \
returns";
const MADE: &str = "note: src/lib.rt:1:1: it is not proved that what the function ensures holds when it returns (`returns`); `search` gave up \
at one of its limits";
const VALUES: &str = "note: src/lib.rt:1:1: it is not proved that what the function ensures holds when it returns (`returns`); the facts \
known there allow values at which this goal is false";
const OF_A_LAW: &str = "./proofs/Laws.antt:3:1: error: `law`: as printed, the two types first differ where one has `1`";
const OF_SPECS: &str = "./specs/Lib.antt:150:24: error: `seconds_left`: `foo` is not in scope";
const CALLEE_NOT: &str = "fn c::callee: not proved";
const CALLEE_NONE: &str =
    "fn c::callee: no proof: expected answers in ./proofs/callee/Answers.antt; `search` did not prove `returns`";
const CALLER_NOT: &str = "fn c::caller: not proved; it calls `c::callee`, which is not proved";
const NOT_PROVED: &str = "logic=not-proved";

fn verdict(wrong: &Wrong, lines: &[&str]) -> Verdict {
    let files = Files::from([("src/lib.rt".to_string(), SOURCE.to_string())]);
    judge(wrong, &Said::read(&lines.join("\n")), &Sources::of("c", &files).functions)
}

fn body(name: &str) -> Wrong {
    Wrong::Bodies(vec![format!("c::{name}")])
}

fn place(verdict: Verdict) -> (String, Words) {
    match verdict {
        Verdict::Refused { at, words } => (at, words),
        verdict => panic!("not refused: {verdict:?}"),
    }
}

#[test]
fn a_false_fact_of_its_own_is_a_refusal() {
    let (at, words) = place(verdict(&body("callee"), &[TACTIC, UNNAMED, FALSE_FACT, CALLEE_NOT, NOT_PROVED]));
    assert_eq!((at.as_str(), words), ("proofs/callee/Answers.antt:23", Words::FalseFact));
    let promise = Wrong::Promise("c::callee".to_string());
    assert_eq!(place(verdict(&promise, &[APART, CALLEE_NOT, NOT_PROVED])).1, Words::FalseFact);
    for two_types in [ANOTHER_TYPE, TWO_LINES] {
        assert_eq!(place(verdict(&promise, &[two_types, CALLEE_NOT, NOT_PROVED])).1, Words::FalseFact);
    }
}

#[test]
fn so_are_values_at_which_a_goal_is_false() {
    for wrong in [body("callee"), Wrong::Promise("c::callee".to_string()), Wrong::Definition] {
        let (at, words) = place(verdict(&wrong, &[VALUES, CALLEE_NONE, NOT_PROVED]));
        assert_eq!((at.as_str(), words), ("src/lib.rt:1", Words::Values));
    }
}

#[test]
fn so_is_an_equation_that_is_left() {
    let promise = Wrong::Promise("c::callee".to_string());
    let (_, words) = place(verdict(&promise, &[TACTIC, LEFT, CALLEE_NOT, NOT_PROVED]));
    assert_eq!(words, Words::EquationLeft);
}

#[test]
fn so_are_a_tactics_words_for_a_body() {
    let (at, words) = place(verdict(&body("callee"), &[TACTIC, CALLEE_NOT, NOT_PROVED]));
    assert_eq!((at.as_str(), words), ("proofs/callee/Answers.antt:12", Words::Tactic));
    let (_, words) = place(verdict(&body("callee"), &[BOUND, CALLEE_NOT, NOT_PROVED]));
    assert_eq!(words, Words::Tactic);
    let (at, _) = place(verdict(&body("callee"), &[MADE, CALLEE_NONE, NOT_PROVED]));
    assert_eq!(at, "src/lib.rt:1");
    let promise = Wrong::Promise("c::callee".to_string());
    for words in [TACTIC, MADE] {
        assert!(!verdict(&promise, &[words, CALLEE_NOT, NOT_PROVED]).is_refused());
        assert!(!verdict(&Wrong::Definition, &[words, CALLEE_NOT, NOT_PROVED]).is_refused());
    }
}

#[test]
fn where_a_name_is_not_there_a_tactics_words_are_none() {
    for unnamed in [UNNAMED, NO_STEP, NO_STEP_IN_TWO_LINES] {
        for lines in [vec![unnamed, MADE, CALLEE_NOT, NOT_PROVED], vec![unnamed, CALLEE_NOT, NOT_PROVED]] {
            assert!(matches!(verdict(&body("callee"), &lines), Verdict::OtherNames(name) if name == "c::callee"));
        }
    }
}

#[test]
fn what_it_uses_and_what_does_not_fit_are_none() {
    assert!(!verdict(&body("caller"), &[FALSE_FACT, USED, CALLEE_NOT, CALLER_NOT, NOT_PROVED]).is_refused());
    assert!(!verdict(&body("callee"), &[UNREAD, ANOTHER_GOAL, CALLEE_NOT, NOT_PROVED]).is_refused());
    assert!(!verdict(&body("caller"), &[MADE, CALLEE_NOT, CALLER_NOT, NOT_PROVED]).is_refused());
    assert!(!verdict(&Wrong::Promise("c::callee".to_string()), &[NO_CLAUSE, CALLEE_NOT, NOT_PROVED]).is_refused());
}

#[test]
fn a_function_that_is_proved_is_not_refused() {
    assert!(!verdict(&body("callee"), &[OF_A_LAW, "fn c::callee: proved", NOT_PROVED]).is_refused());
    assert!(!verdict(&body("callee"), &[FALSE_FACT, "fn c::callee: could not tell", NOT_PROVED]).is_refused());
    assert!(!verdict(&body("callee"), &[FALSE_FACT, NOT_PROVED]).is_refused(), "the check does not name it");
}

#[test]
fn a_definition_is_refused_by_what_is_proved_of_it() {
    assert_eq!(place(verdict(&Wrong::Definition, &[OF_A_LAW, NOT_PROVED])).0, "proofs/Laws.antt:3");
    assert_eq!(place(verdict(&Wrong::Definition, &[OTHER_VALUES, NOT_PROVED])).1, Words::FalseFact);
    assert_eq!(place(verdict(&Wrong::Definition, &[OTHER_INDICES, NOT_PROVED])).1, Words::FalseFact);
    assert!(!verdict(&Wrong::Definition, &[OF_SPECS, OF_A_LAW, NOT_PROVED]).is_refused());
    assert!(!verdict(&Wrong::Definition, &[NO_CLAUSE, OF_A_LAW, NOT_PROVED]).is_refused());
    assert!(!verdict(&Wrong::Definition, &[USED, NOT_PROVED]).is_refused());
}

#[test]
fn without_a_verdict_nothing_is_refused() {
    assert!(!verdict(&body("callee"), &[FALSE_FACT, CALLEE_NOT]).is_refused());
}
