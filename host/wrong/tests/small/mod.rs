//! A small repository with one crate, in a folder of its own. Its files are written from here, as the kit would take those
//! of another crate in this repository for its own.

use std::fs;
use std::path::{Path, PathBuf};
use std::process::{self, Command, Output};

const FILES: [(&str, &str); 7] = [
    ("crates.txt", "small:\n"),
    (
        "crates/small/src/lib.rt",
        "\
// Numbers.
#![tactic(auto)]

ghost use Rattle.std.specs.Prelude.{◌≡◌};
ghost use Rattle.small.specs.Small.{least};

const SEVEN: usize = 7;

pub fn lesser(a: usize, b: usize) -> usize
    ensures { result ≡ least a b }
{
    if a <= b {
        return a; // the lesser
    }
    b
}

pub fn least_of(a: usize, b: usize, c: usize) -> usize
    ensures { result ≡ least (least a b) c }
{
    let first = lesser(a, b);
    lesser(first, c)
}

pub fn seven() -> usize
    ensures { result ≡ 7 }
{
    SEVEN
}

pub fn capped(a: usize) -> usize
    ensures { result ≡ least a 7 }
{
    if a <= SEVEN {
        return a;
    }
    seven()
}
",
    ),
    ("crates/small/specs/Lib.antt", "pub mod Small\n"),
    (
        "crates/small/specs/Small.antt",
        "\
use Rattle.std.specs.Prelude.{ℕ, cond, leb}

unfoldable pub least : ℕ → ℕ → ℕ
least a b = cond (leb a b) a b
",
    ),
    (
        "crates/small/proofs/lesser/Answers.antt",
        "\
use borrow.Author.Tests.{le-leb, lt-leb}
use Rattle.small.specs.Small.{least}
use Rattle.small.proofs.lesser.Goals as goal

pub returns-then-a-b : goal.returns-then-a-b
unfolding least
returns-then-a-b c = rw (le-leb _ _ c.if-a-b.true)

pub returns : goal.returns
unfolding least
returns c = rw (lt-leb _ _ c.if-a-b.false)
",
    ),
    (
        "crates/small/proofs/least_of/Answers.antt",
        "\
use Rattle.small.proofs.least_of.Goals as goal

pub returns : goal.returns
returns c = rw (c.lesser.ensures, c.lesser-first.ensures)
",
    ),
    (
        "crates/small/proofs/capped/Answers.antt",
        "\
use borrow.Author.Tests.{le-leb, lt-leb}
use Rattle.small.specs.Small.{least}
use Rattle.small.proofs.capped.Goals as goal

pub returns-then-a-le-SEVEN : goal.returns-then-a-le-SEVEN
unfolding least
returns-then-a-le-SEVEN c = rw (le-leb _ _ c.if-a-le-SEVEN.true)

pub returns : goal.returns
unfolding least
returns c = rw (lt-leb _ _ c.if-a-le-SEVEN.false, c.seven.ensures)
",
    ),
];

pub struct Small {
    root: PathBuf,
}

pub struct Ran {
    pub status: Option<i32>,
    pub text: String,
}

impl Small {
    /// The name is for the test alone.
    pub fn written(name: &str) -> Small {
        let root = std::env::temp_dir().join(format!("tmavolice_wrong_{name}_{}", process::id()));
        for (name, text) in FILES {
            write(&root.join(name), text);
        }
        Small { root }
    }

    pub fn edit(&self, name: &str, file: &str, swaps: &[(&str, &str)]) {
        self.edit_in("wrong", name, file, swaps);
    }

    /// An edit in one of the two folders.
    pub fn edit_in(&self, folder: &str, name: &str, file: &str, swaps: &[(&str, &str)]) {
        let pairs: String = swaps.iter().map(|(old, new)| format!("old: {old}\nnew: {new}\n")).collect();
        write(&self.root.join(format!("crates/small/{folder}/{name}.edit")), &format!("file: {file}\n{pairs}"));
    }

    pub fn run(&self, words: &[&str]) -> Ran {
        run(&self.root, words)
    }
}

impl Drop for Small {
    fn drop(&mut self) {
        let _ = fs::remove_dir_all(&self.root);
    }
}

/// The runner in this folder.
pub fn run(folder: &Path, words: &[&str]) -> Ran {
    let runner = env!("CARGO_BIN_EXE_wrong");
    ran(Command::new(runner).args(words).current_dir(folder).output().expect("the runner is built"))
}

fn ran(output: Output) -> Ran {
    let text = [output.stdout, output.stderr].map(|octets| String::from_utf8_lossy(&octets).into_owned()).concat();
    Ran { status: output.status.code(), text }
}

impl Ran {
    pub fn says(&self, words: &str) -> bool {
        self.text.lines().any(|line| line.trim_start().starts_with(words))
    }
}

fn write(path: &Path, text: &str) {
    fs::create_dir_all(path.parent().expect("it is in a folder")).expect("a folder can be made");
    fs::write(path, text).expect("a file can be written");
}
