//! Edit files, and which of them are edits at all.

use wrong::edit::{applied, swaps, Edit, Files};
use wrong::operations::operations;

fn files() -> Files {
    Files::from([("src/lib.rt".to_string(), "let a = 1;\nlet b = 2;\nlet c = 2;\n".to_string())])
}

fn edit(text: &str) -> Edit {
    Edit { name: "edit".to_string(), is_of_kit: false, swaps: swaps(text) }
}

fn fault(text: &str) -> String {
    edit(text).places(&files()).expect_err("it is no edit")
}

#[test]
fn texts_are_replaced_together() {
    let both = edit("file: src/lib.rt\nold: = 1\nnew: = 10\na comment\nold: let b\nnew: let bb\n");
    let places = both.places(&files()).expect("it is an edit");
    assert_eq!(applied(&files(), &places)["src/lib.rt"], "let a = 10;\nlet bb = 2;\nlet c = 2;\n");
}

#[test]
fn blanks_count() {
    let blanks = edit("file: src/lib.rt\nold: a =\nnew:  a =\nold: b =\nnew:\n");
    assert_eq!(blanks.swaps[0].new, " a =");
    assert_eq!(blanks.swaps[1].new, "");
}

#[test]
fn bad_edits_say_why() {
    assert_eq!(fault("file: src/lib.rt\nold: = 3\nnew: = 4\n"), "'= 3' is not in src/lib.rt");
    assert_eq!(fault("file: src/lib.rt\nold: = 2\nnew: = 4\n"), "'= 2' is in src/lib.rt more than once");
    assert_eq!(fault("file: src/main.rt\nold: = 1\nnew: = 4\n"), "the crate has no file src/main.rt");
    assert_eq!(
        fault("file: proofs/Lib.antt\nold: = 1\nnew: = 4\n"),
        "'proofs/Lib.antt' is no file below src/ or specs/"
    );
    assert_eq!(fault("file: src/lib.rt\nold: = 1\nnew: = 1\n"), "it replaces nothing in src/lib.rt");
    assert_eq!(fault("file: src/lib.rt\n"), "it has no pair of 'old:' and 'new:'");
    let half = "file: src/lib.rt\nold: = 1\nold: let b\nnew: let bb\n";
    assert_eq!(fault(half), "it replaces nothing in src/lib.rt");
    assert_eq!(fault("file: src/lib.rt\nold: = 1\nnew: = 3\nnew: = 4\n"), "it replaces nothing in src/lib.rt");
    let overlapping = "file: src/lib.rt\nold: a = 1\nnew: a = 3\nold: 1;\nnew: 4;\n";
    assert_eq!(fault(overlapping), "two of its 'old:' texts overlap");
}

#[test]
fn operations_are_told_from_operands() {
    let same = |old, new| operations(old) == operations(new);
    assert!(same("if 86400 < seconds {", "if 86401 < seconds {"));
    assert!(same("if left <= passed {", "if passed < left {"));
    assert!(same("new.level != s.level", "new.level != codec::LEVEL"));
    assert!(same("sub(new, clock_of(b))", "sub(clock_of(b), new)"));
    assert!(same("&b[1280..1536]", "&b[1280..1535]"));
    assert!(!same("while i < n {", "while i + 1 < n {"));
    assert!(!same("return a;", "a"));
    assert!(!same("x / 256", "x % 256"));
    assert!(!same("a < b", "!(b < a)"));
}
