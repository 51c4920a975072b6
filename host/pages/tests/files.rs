//! Paths of the tree, and commands.

use pages::tree::Tree;
use pages::{code, commands, none, paths};

const TREE: [(&str, &str); 3] = [
    ("crates/codec/specs/Request.antt", "one\ntwo\n"),
    ("host/run/main.c", "int x;\n"),
    ("Makefile", ".PHONY: run test\n\nPREFIX = /usr\nNAME := x\n\nrun: x\n\t@echo make: no\n\ntest install:\n"),
];

fn tree(page: &str) -> Tree {
    Tree::of(&[&TREE[..], &[("docs/PAGE.md", page)]].concat())
}

fn files(page: &str) -> Vec<String> {
    paths::check(&tree(page))
}

fn made(page: &str) -> Vec<String> {
    commands::check(&tree(page))
}

#[test]
fn every_path_of_the_pages_is_there() {
    none(paths::check(&Tree::ours()));
}

#[test]
fn every_command_of_the_pages_has_a_target() {
    none(commands::check(&Tree::ours()));
}

#[test]
fn right_paths_have_no_finding() {
    none(files(
        "crates/codec/specs/Request.antt, `crates/codec/specs/Request.antt`, host/run. (host/) crates/*/specs\n\
         target/host/gone /usr/include/gone.h\n\n    host/run/main.c: error\n",
    ));
}

#[test]
fn a_path_to_nothing_is_found() {
    assert_eq!(files("one\nhost/gone.sh\n"), ["docs/PAGE.md:2: no such file: host/gone.sh"]);
    assert_eq!(files("- `crates/codek/specs`.\n"), ["docs/PAGE.md:1: no such file: crates/codek/specs"]);
    assert_eq!(files("| [a](include/x.h) |\n"), ["docs/PAGE.md:1: no such file: include/x.h"]);
    assert_eq!(files("```\n\npackaging/man\n```\n"), ["docs/PAGE.md:3: no such file: packaging/man"]);
    assert_eq!(files("host/*/main.rs\n"), ["docs/PAGE.md:1: no such file: host/*/main.rs"]);
    assert_eq!(files("host/ru\n"), ["docs/PAGE.md:1: no such file: host/ru"]);
}

#[test]
fn a_line_of_a_file_is_found() {
    assert_eq!(files("host/run/main.c:1\n"), ["docs/PAGE.md:1: no such file: host/run/main.c:1"]);
}

#[test]
fn right_commands_have_no_finding() {
    none(made(
        "To make sure, `make test`, `make`, `make install PREFIX=/usr`, `remake me`.\n\n    make run     plays it\n",
    ));
}

#[test]
fn a_command_without_a_target_is_found() {
    assert_eq!(made("one\n`make tset`\n"), ["docs/PAGE.md:2: make has no target tset"]);
    assert_eq!(made("`cd x && make PHONY`\n"), ["docs/PAGE.md:1: make has no target PHONY"]);
    assert_eq!(made("one\n\n    make runs     plays it\n"), ["docs/PAGE.md:3: make has no target runs"]);
    assert_eq!(made("```\n$ make runs\nonce more: make tests SEED=5\n```\n").len(), 2);
}

#[test]
fn every_backquote_has_its_second() {
    none(code::check(&Tree::ours()));
}

#[test]
fn a_backquote_alone_is_found() {
    assert_eq!(code::check(&tree("one\n\n- `a` and `b\n")), ["docs/PAGE.md:3: a backquote alone"]);
}
