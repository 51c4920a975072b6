//! Names and numbers of the header, and the rooms.

use pages::tree::Tree;
use pages::{header, none, rooms};

const HEADER: &str = "enum {\n    TMAVOLICE_OUTCOME_REFUSED = 0, /* x */\n    TMAVOLICE_OUTCOME_DROP = 2,\n\
                      \x20   TMAVOLICE_REFUSAL_NONE = 0,\n    TMAVOLICE_REFUSAL_SHORT = 3,\n    TMAVOLICE_FAULT_NO_PORT = 6\n};\n\
                      uint64_t tmavolice_tick(uint8_t *image);\n";
const HOST: &str = "`tmavolice_tick`, TMAVOLICE_FAULT_..\n\n| outcome | x |\n|---|---|\n| `TMAVOLICE_OUTCOME_REFUSED` 0 | y |\n\
                    | `TMAVOLICE_OUTCOME_DROP` 2 | y |\n| 3 `TMAVOLICE_REFUSAL_SHORT` | y |\n| 6 `TMAVOLICE_FAULT_NO_PORT` | y |\n";
const MAN: &str = ".TS\n\\fBTMAVOLICE_OUTCOME\\fR|x\n0 _REFUSED|T{\ny\nT}\n2 _DROP|T{\n.TE\n\\fBTMAVOLICE_REFUSAL\\fR|x\n3 _SHORT|T{\n";
const CRATES: &str = "octets:\ncodec: octets\nshift: codec io\n";
const ROOMS: &str = "| Room | x |\n|---|---|\n| `octets` | y |\n| `codec` | y |\n| `shift` | y |\n";

fn of_header(host: &str, man: &str) -> Vec<String> {
    let man = ("packaging/man/tmavolice.3", man);
    header::check(&Tree::of(&[("include/tmavolice.h", HEADER), ("docs/HOST.md", host), man]))
}

fn of_rooms(page: &str) -> Vec<String> {
    rooms::check(&Tree::of(&[("crates.txt", CRATES), ("docs/ROOMS.md", page)]))
}

#[test]
fn the_pages_have_the_names_and_numbers_of_the_header() {
    none(header::check(&Tree::ours()));
}

#[test]
fn the_rooms_are_the_crates() {
    none(rooms::check(&Tree::ours()));
}

#[test]
fn right_pages_have_no_finding() {
    none(of_header(HOST, MAN));
    none(of_rooms(ROOMS));
}

#[test]
fn a_name_that_no_header_has_is_found() {
    assert_eq!(of_header(&HOST.replace("_tick", "_tock"), MAN), ["docs/HOST.md:1: no header has tmavolice_tock"]);
    let renamed = of_header(&HOST.replace("_REFUSAL_SHORT", "_REFUSAL_LONG"), MAN);
    assert_eq!(renamed.len(), 3, "{renamed:?}");
}

#[test]
fn a_wrong_number_and_a_row_too_few_are_found() {
    let other = of_header(&HOST.replace("_DROP` 2", "_DROP` 3"), MAN);
    assert_eq!(other, ["docs/HOST.md:6: the header has not TMAVOLICE_OUTCOME_DROP = 3"]);
    let fewer = of_header(HOST, &MAN.replace("2 _DROP|T{\n", ""));
    assert_eq!(fewer, ["packaging/man/tmavolice.3:1: no row of TMAVOLICE_OUTCOME_DROP"]);
    let swapped = of_header(HOST, &MAN.replace("3 _SHORT", "4 _SHORT"));
    assert_eq!(swapped, ["packaging/man/tmavolice.3:9: the header has not TMAVOLICE_REFUSAL_SHORT = 4"]);
}

#[test]
fn a_room_too_few_too_many_or_too_early_is_found() {
    assert_eq!(of_rooms(&ROOMS.replace("| `octets` | y |\n", ""))[1..], ["docs/ROOMS.md:1: no row of octets"]);
    assert_eq!(of_rooms(&ROOMS.replace("`shift`", "`shifts`"))[0], "docs/ROOMS.md:5: no such crate: shifts");
    let early = of_rooms("| Room | x |\n|---|---|\n| `codec` | y |\n| `octets` | y |\n| `shift` | y |\n");
    assert_eq!(early, ["docs/ROOMS.md:3: codec uses octets, which does not stand above it"]);
}
