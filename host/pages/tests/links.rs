//! Links, labels and their definitions.

use pages::links::check;
use pages::none;
use pages::tree::Tree;

const OTHER: (&str, &str) = ("docs/OTHER.md", "# Other\n\n## A `u` flow, twice\n");

/// What is found on a page in docs/, beside another.
fn found(page: &str) -> Vec<String> {
    check(&Tree::of(&[OTHER, ("docs/PAGE.md", page), ("host/run.c", "int x;\n")]))
}

#[test]
fn every_link_of_the_pages_leads_somewhere() {
    none(check(&Tree::ours()));
}

#[test]
fn a_right_page_has_no_finding() {
    none(found(
        "# Page\n\n[other](OTHER.md), [flow](OTHER.md#a-u-flow-twice), [here](#page), [code](../host/run.c),\n\
         [by\nlabel], `[no](link)`, `a[0]`\n\n    [code](gone.md)\n\n```\n[code](gone.md)\n```\n\n[By label]: OTHER.md\n",
    ));
}

#[test]
fn a_link_to_no_file_is_found() {
    assert_eq!(found("one\n[a](GONE.md)\n"), ["docs/PAGE.md:2: no such file: GONE.md"]);
    assert_eq!(found("[a](../../OTHER.md)\n"), ["docs/PAGE.md:1: no such file: ../../OTHER.md"]);
    assert_eq!(found("| [a](docs/OTHER.md) |\n"), ["docs/PAGE.md:1: no such file: docs/OTHER.md"]);
    assert_eq!(found("[a]()\n"), ["docs/PAGE.md:1: no such file: "]);
    assert_eq!(found("[a](https://x.org)\n"), ["docs/PAGE.md:1: no such file: https://x.org"]);
}

#[test]
fn a_link_to_no_heading_is_found() {
    assert_eq!(found("[a](OTHER.md#gone)\n"), ["docs/PAGE.md:1: no such heading: OTHER.md#gone"]);
    assert_eq!(found("[a](#other)\n"), ["docs/PAGE.md:1: no such heading: #other"]);
    assert_eq!(found("[a](../host/run.c#L1)\n"), ["docs/PAGE.md:1: no such heading: ../host/run.c#L1"]);
}

#[test]
fn a_label_without_a_definition_is_found() {
    assert_eq!(found("# Page\n\nsee [that\npage]\n"), ["docs/PAGE.md:3: no definition of [that page]"]);
}

#[test]
fn a_definition_that_nothing_uses_is_found() {
    assert_eq!(found("one\n\n[that page]: OTHER.md\n"), ["docs/PAGE.md:3: nothing uses [that page]"]);
}

#[test]
fn a_definition_to_nowhere_and_a_second_one_are_found() {
    let twice = found("[a]\n\n[a]: OTHER.md\n[A]: OTHER.md#gone\n");
    assert_eq!(twice, ["docs/PAGE.md:4: no such heading: OTHER.md#gone", "docs/PAGE.md:4: defined twice: [a]"]);
}
