//! What an edit makes wrong, by the place that it edits.

use wrong::edit::{swaps, Edit, Files};
use wrong::owner::{Sources, Wrong};
use wrong::source::functions;

const READERS: &str = "\
const LIMIT: usize = 16;

const TABLE: [[u8; 2]; 2] = [
    [1, 2],
    [3, 4],
];

impl<'a> Reader<'a> {
    pub fn next(
        self,
        by: usize,
    ) -> usize
        ensures { next }
    {
        self.at + by
    }
}

pub fn entry_of(row: usize) -> u8 {
    TABLE[row][1]
}

#[no_mangle]
pub extern \"C\" fn read(at: usize) -> usize
    ensures {
        of_read
    }
{
    if at < LIMIT {
        return at;
    }
    LIMIT
}
";

fn files() -> Files {
    Files::from([
        ("src/lib.rt".to_string(), "fn root() {}\n".to_string()),
        ("src/readers.rt".to_string(), READERS.to_string()),
        ("specs/Lib.antt".to_string(), "pub mod Readers\n".to_string()),
    ])
}

fn wrong(file: &str, old: &str) -> Result<Wrong, String> {
    let edit = Edit {
        name: "edit".to_string(),
        is_of_kit: false,
        swaps: swaps(&format!("file: {file}\nold: {old}\nnew: x\n")),
    };
    let files = files();
    Sources::of("c", &files).wrong(&edit.places(&files)?)
}

fn bodies(old: &str) -> Vec<String> {
    match wrong("src/readers.rt", old) {
        Ok(Wrong::Bodies(names)) => names,
        _ => panic!("{old} is in no body"),
    }
}

fn promise(old: &str) -> String {
    match wrong("src/readers.rt", old) {
        Ok(Wrong::Promise(name)) => name,
        _ => panic!("{old} is in no promise"),
    }
}

#[test]
fn functions_have_the_names_that_the_check_gives_them() {
    let names = |file, text| functions("c", file, text).into_iter().map(|f| f.name).collect::<Vec<_>>();
    assert_eq!(names("src/lib.rt", "fn root() {}\n"), ["c::root"]);
    let readers = ["c::readers::Reader::next", "c::readers::entry_of", "c::readers::read"];
    assert_eq!(names("src/readers.rt", READERS), readers);
    assert_eq!(names("src/a/b.rt", "pub fn f() {\n    1\n}\n"), ["c::a::b::f"]);
}

#[test]
fn a_body_and_a_promise_are_told_apart() {
    assert_eq!(bodies("self.at + by"), ["c::readers::Reader::next"]);
    assert_eq!(bodies("return at;"), ["c::readers::read"]);
    assert_eq!(promise("{ next }"), "c::readers::Reader::next");
    assert_eq!(promise("of_read"), "c::readers::read");
}

#[test]
fn a_constant_belongs_to_its_readers() {
    assert_eq!(bodies("= 16"), ["c::readers::read"]);
    assert_eq!(bodies("[3, 4]"), ["c::readers::entry_of"]);
}

#[test]
fn a_function_uses_what_its_text_names() {
    let files = Files::from([("src/a.rt".to_string(), "fn f() {}\n\nfn g() {\n    f()\n}\n".to_string())]);
    let sources = Sources::of("c", &files);
    assert!(
        sources.uses("c::a::g", "c::a::f")
            && !sources.uses("c::a::f", "c::a::g")
            && !sources.uses("c::a::f", "c::a::f")
    );
}

#[test]
fn a_function_without_a_proof_of_its_own_waits_for_what_it_calls() {
    let code = "fn f() {}\n\nfn g() {\n    f()\n}\n\nfn h() {\n    g()\n}\n\nfn k() {\n    g()\n}\n";
    let files = Files::from([
        ("src/a.rt".to_string(), code.to_string()),
        ("proofs/a/k/Answers.antt".to_string(), String::new()),
        ("proofs/a/h/Invariants.antt".to_string(), String::new()),
    ]);
    let sources = Sources::of("c", &files);
    assert!(sources.waits("c::a::g", "c::a::f") && sources.waits("c::a::h", "c::a::f"));
    assert!(!sources.waits("c::a::k", "c::a::f") && !sources.waits("c::a::f", "c::a::h"));
}

#[test]
fn the_rest_is_a_definition_or_nothing() {
    assert!(matches!(wrong("specs/Lib.antt", "Readers"), Ok(Wrong::Definition)));
    assert!(wrong("src/readers.rt", "impl").is_err());
}
