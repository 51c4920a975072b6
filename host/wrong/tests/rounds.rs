//! Which edits share a check.

use wrong::owner::Wrong;
use wrong::round::rounds;

fn body(names: &[&str]) -> Wrong {
    Wrong::Bodies(names.iter().map(|name| name.to_string()).collect())
}

fn promise(name: &str) -> Wrong {
    Wrong::Promise(name.to_string())
}

/// Where `g` uses `f`, and `k` waits for `f`.
fn rounds_of(wrongs: &[Wrong]) -> Vec<Vec<usize>> {
    let uses = |user: &str, used: &str| (user, used) == ("g", "f");
    let waits = |user: &str, used: &str| (user, used) == ("k", "f");
    rounds(&wrongs.iter().collect::<Vec<_>>(), uses, waits)
}

#[test]
fn a_function_is_edited_once_a_round() {
    let wrongs = [body(&["f"]), body(&["g"]), body(&["f"]), body(&["f", "h"]), body(&["h"])];
    assert_eq!(rounds_of(&wrongs), [vec![0, 1, 4], vec![2], vec![3]]);
}

#[test]
fn a_promise_is_edited_apart_from_what_uses_it() {
    assert_eq!(rounds_of(&[promise("f"), body(&["g"]), body(&["h"]), promise("h")]), [vec![0, 2], vec![1, 3]]);
    assert_eq!(rounds_of(&[body(&["g"]), promise("f")]), [vec![0], vec![1]]);
    assert_eq!(rounds_of(&[body(&["f"]), promise("g")]), [vec![0, 1]]);
}

#[test]
fn a_function_is_edited_apart_from_what_it_waits_for() {
    assert_eq!(rounds_of(&[body(&["f"]), body(&["k"]), body(&["g"])]), [vec![0, 2], vec![1]]);
    assert_eq!(rounds_of(&[promise("k"), body(&["h", "f"])]), [vec![0], vec![1]]);
}

#[test]
fn definitions_are_alone() {
    assert_eq!(rounds_of(&[Wrong::Definition, body(&["f"]), Wrong::Definition]), [vec![1], vec![0], vec![2]]);
}
