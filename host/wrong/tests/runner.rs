//! The runner on a small repository: what has to be refused is, and nothing else passes.

mod small;

use small::Small;

#[test]
fn only_what_is_wrong_and_refused_passes() {
    let small = Small::written("all");
    small.edit("greater", "src/lib.rt", &[("        return a; // the lesser", "        return b; // the lesser")]);
    small.edit("eight", "src/lib.rt", &[("SEVEN: usize = 7;", "SEVEN: usize = 8;")]);
    small.edit("capped_by_eight", "src/lib.rt", &[("if a <= SEVEN {", "if a <= 8 {")]);
    small.edit_in("must-fail", "nine", "src/lib.rt", &[("SEVEN: usize = 7;", "SEVEN: usize = 9;")]);
    small.edit("greater_by_definition", "specs/Small.antt", &[("(leb a b) a b", "(leb a b) b a")]);
    small.edit("says_eight", "src/lib.rt", &[("{ result ≡ 7 }", "{ result ≡ 8 }")]);
    let renamed =
        [("let first = lesser(a, b);", "let found = lesser(a, b);"), ("lesser(first, c)", "lesser(found, c)")];
    small.edit("renamed", "src/lib.rt", &renamed);
    small.edit("other_operations", "src/lib.rt", &[("if a <= b {", "if !(b < a) {")]);
    small.edit("not_there", "src/lib.rt", &[("if a < b {", "if b < a {")]);
    small.edit("there_twice", "src/lib.rt", &[("lesser", "greater")]);
    small.edit("of_no_function", "src/lib.rt", &[("std.specs.Prelude", "std.specs.Preludes")]);
    small.edit(
        "unknown_name",
        "src/lib.rt",
        &[("        return a; // the lesser", "        return nobody; // the lesser")],
    );
    small.edit("unknown_definition", "specs/Small.antt", &[("(leb a b) a b", "(leb a b) nobody b")]);
    small.edit("unknown_in_a_clause", "src/lib.rt", &[("{ result ≡ 7 }", "{ result ≡ eight }")]);

    let ran = small.run(&[]);
    for name in ["greater", "eight", "nine", "capped_by_eight", "greater_by_definition", "says_eight"] {
        assert!(ran.says(&format!("small/{name}: refused at ")), "{name}\n{}", ran.text);
    }
    // Their proofs cite steps by names that the edits change.
    for name in ["renamed", "capped_by_eight"] {
        assert!(
            ran.says(&format!("small/{name}: to be tried in the names that it gives to goals")),
            "{name}\n{}",
            ran.text
        );
    }
    assert!(ran.says("small/renamed: NOT REFUSED: small::least_of is still proved"), "{}", ran.text);
    for name in ["unknown_name", "unknown_definition", "unknown_in_a_clause"] {
        assert!(ran.says(&format!("small/{name}: NOT REFUSED: ")), "{name}\n{}", ran.text);
    }
    for name in ["other_operations", "not_there", "there_twice", "of_no_function"] {
        assert!(ran.says(&format!("small/{name}: BAD EDIT: ")), "{name}\n{}", ran.text);
    }
    assert_eq!(ran.text.lines().last(), Some("6 passed, 8 failed"));
    assert_eq!(ran.status, Some(1));
}

#[test]
fn other_operations_are_left_to_rt_where_it_tries_them() {
    let small = Small::written("left");
    let swap = [("if a <= b {", "if !(b < a) {")];
    small.edit_in("must-fail", "of_rt", "src/lib.rt", &swap);
    let of_rt = small.run(&[]);
    assert_eq!(of_rt.text, "  left to rt: 1 of must-fail/, with other operations\n0 passed, 0 failed\n");

    small.edit_in("wrong", "of_none", "src/lib.rt", &swap);
    let both = small.run(&[]);
    assert!(both.says("small/of_none: BAD EDIT: it changes the operations: "), "{}", both.text);
    assert!(both.says("left to rt: 1 of must-fail/") && !both.text.contains("of_rt"), "{}", both.text);
    assert_eq!((both.status, both.text.lines().last()), (Some(1), Some("0 passed, 1 failed")));

    small.edit_in("must-fail", "not_there", "src/lib.rt", &[("if a < b {", "if !(b < a) {")]);
    let all = small.run(&[]);
    assert!(all.says("small/not_there: BAD EDIT: 'if a < b {' is not in src/lib.rt"), "{}", all.text);
}

#[test]
fn a_crate_that_is_not_listed_is_named() {
    let ran = small::run(&std::env::current_dir().expect("there is one"), &["nobody"]);
    assert_eq!((ran.status, ran.text.trim_end()), (Some(2), "wrong: crates.txt has no crate nobody"));
}
