//! The words of the field.

use pages::none;
use pages::tree::Tree;
use pages::words::check;

fn found(file: &str, text: &str) -> Vec<String> {
    check(&Tree::of(&[(file, text)]))
}

#[test]
fn the_pages_for_hosts_have_the_words_of_the_field() {
    none(check(&Tree::ours()));
}

#[test]
fn right_words_have_no_finding() {
    let text =
        "A frame is looped back; reading a plan, the silent loop, fallowed, `lent_octets`, Turn the round knob.\n";
    none(found("docs/HOST.md", text));
    none(found("README.md", "tries every wrong program\n"));
    none(found("docs/CLAIMS.md", "turned round, lent, owed, the last reading\n"));
}

#[test]
fn a_word_of_the_definitions_is_found() {
    assert_eq!(found("README.md", "Owed\n"), ["README.md:1: \"owed\": the field has \"pending\""]);
    assert_eq!(
        found("include/x.h", "/* x\n * turned\n * round */\n"),
        ["include/x.h:2: \"turned round\": the field has \"looped back\""]
    );
    assert_eq!(
        found("packaging/man/x.3", ".SH X\nis lent\n"),
        ["packaging/man/x.3:2: \"lent\": the field has \"the caller's buffer\""]
    );
    for text in ["turn round", "lends", "the last reading", "a reading of the clock", "wrong programs"] {
        assert!(!found("docs/HOST.md", text).is_empty(), "{text}");
    }
}
