//! Names and their places, in a small tree of two crates.

use pages::names::check;
use pages::none;
use pages::tree::Tree;

const CODE: &str =
    "pub const MOST: u8 = 3;\n\npub fn by_type(t: u8) -> u8\n    requires { y }\n    ensures { x }\n{\n    t\n}\n\n\
                    fn bare(t: u8) -> u8 {\n    t\n}\n\nfn asks(t: u8)\n    requires { x }\n{\n    t\n}\n\n\
                    pub extern \"C\" fn entry(\n    t: u8,\n)\n    ensures { x }\n{\n    t\n}\n";
const SPEC: &str = "-- a type\nunfoldable pub typed_by : N → N\ntyped_by n = other n\n\
                    pub data In (x : N) : List N → Type 0 where\n  here : In 1\npub hex : (t : N) → N\n";
const TREE: [(&str, &str); 6] = [
    ("crates/codec/src/pdu.rt", CODE),
    ("crates/codec/specs/Request.antt", SPEC),
    ("crates/codec/proofs/Examples/Lines.antt", "  pub each_line : N\n"),
    ("crates/codec/proofs/Mps.antt", "abbrev levels : N\ngroups : N\n"),
    ("crates/calls_serving/specs/Frame.antt", "unfoldable pub for_mp : N\npub typed_by : N\n"),
    ("crates/calls_serving/src/lib.rt", "pub enum Kind {\n    A,\n}\n"),
];
/// A name, and a place where it is.
const FORMS: [(&str, &str); 12] = [
    ("typed_by", "codec"),
    ("Lines", "codec"),
    ("codec", "crates/codec"),
    ("Kind", "calls_serving"),
    ("MOST", "codec src/pdu.rt"),
    ("In", "codec Request"),
    ("here", "codec, Request"),
    ("groups", "codec, proofs/Mps"),
    ("each_line", "codec, proofs/Examples/Lines"),
    ("by_type", "codec, src/pdu.rt"),
    ("entry", "codec src/pdu.rt"),
    ("typed_by", "calls_serving, Frame; codec, Request"),
];

/// What is found on a page.
fn found(page: &str) -> Vec<String> {
    check(&Tree::of(&[&TREE[..], &[("docs/DECISIONS.md", page)]].concat()))
}

fn finds(page: &str, what: &str) {
    assert_eq!(found(page), [format!("docs/DECISIONS.md:1: {what}")], "{page}");
}

#[test]
fn every_name_of_the_pages_is_at_its_place() {
    none(check(&Tree::ours()));
}

#[test]
fn every_form_is_read() {
    for (name, place) in FORMS {
        none(found(&format!("`{name}` ({place})\n")));
        assert_ne!(found(&format!("`{name}s` ({place})\n")), Vec::<String>::new(), "{place}");
    }
}

#[test]
fn runs_broken_lines_and_applications_are_read() {
    let page =
        "`typed_by`, `In` and `here` (codec, Request), `levels`,\n`groups` (codec, proofs/Mps), `MOST`, by `by_type`\n\
                (codec src/pdu.rt), `hex \"80\"` (codec, Request) and `each_line` (codec, Examples/Lines)\n";
    none(found(page));
    for name in ["typed_by", "In", "here", "levels", "groups", "MOST", "by_type", "hex", "each_line"] {
        assert_eq!(found(&page.replace(&format!("`{name}"), &format!("`{name}s"))).len(), 1, "{name}");
    }
}

#[test]
fn words_in_parentheses_are_no_place() {
    none(found("`levels` (another MP), `codec` (reading), `x` (the 17th, and more), `y` (`z_z`)\n"));
}

#[test]
fn a_name_that_had_its_place_may_stand_at_another() {
    none(found("- `levels` (codec, proofs/Mps)\n- so `levels` and `typed_by` (codec, Request)\n"));
    finds("so `levels` and `typed_by` (codec, Request)\n", "`levels` is not defined in crate codec, Request");
    let below_another = found("- `levels` (codec, proofs/Mps)\n\n# New\n\nso `levels` and `typed_by` (codec, Request)\n");
    assert_eq!(below_another, ["docs/DECISIONS.md:5: `levels` is not defined in crate codec, Request"]);
}

#[test]
fn a_name_that_is_not_there_is_found() {
    finds("`typde_by` (codec, Request)\n", "`typde_by` is not defined in crate codec, Request");
    finds("`typde_by` `In` (codec Request)\n", "`typde_by` is not defined in crate codec, Request");
    finds("`typde_by`, `In` (codec Request)\n", "`typde_by` is not defined in crate codec, Request");
    finds("`other` (codec, Request)\n", "`other` is not defined in crate codec, Request");
    finds("`typed_by` (codec, proofs/Mps)\n", "`typed_by` is not defined in crate codec, proofs/Mps");
    finds("`typed_by` (codec, src/pdu.rt)\n", "`typed_by` is not defined in crate codec, src/pdu.rt");
    finds("`for_mp` (codec)\n", "`for_mp` is not defined in crate codec");
    finds("`levels` (codec, Mps; codec, Request)\n", "`levels` is not defined in crate codec, Request");
}

#[test]
fn a_function_without_a_promise_is_found() {
    finds("`bare` (codec src/pdu.rt)\n", "`bare` has no promise in crate codec, src/pdu.rt");
    finds("`asks` (codec, src/pdu.rt)\n", "`asks` has no promise in crate codec, src/pdu.rt");
    finds("`bare`, by `by_type` (codec src/pdu.rt)\n", "`bare` has no promise in crate codec, src/pdu.rt");
}

#[test]
fn a_place_that_is_not_there_is_found() {
    finds("`typed_by` (codec, specs/Requests)\n", "no such file: crate codec, specs/Requests");
    finds("`typed_by` (codec, Request; and so on)\n", "no place that can be read: (and so on)");
    for place in [
        "codek Request",
        "codek, Requests",
        "codek src/pdu.rt",
        "calls_serve",
        "Examples/Lines",
        "codec and others",
        "codec, promise",
        "codec: of old",
        "codec Request, Mps",
    ] {
        finds(&format!("`typed_by` ({place})\n"), &format!("no place that can be read: ({place})"));
    }
}
