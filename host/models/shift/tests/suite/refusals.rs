//! P84 to P86: refusals, which of them there are, and that the run goes on.

use crate::bench::*;

#[test]
fn p84_a_refusal_has_five_places_and_the_run_goes_on() {
    let lines = b"allow\t3\nfoo\t1\nallow\t1\n";
    assert_eq!(run_lines(lines), "1\tallow\trefused\t6\t-\n2\tbad\trefused\t9\t-\n3\tallow\tdone\t0\t-\n");
}

/// The fourth place of each line.
fn numbers(lines: &str) -> Vec<String> {
    let told = run_lines(lines.as_bytes());
    told.lines().map(|line| line.split('\t').nth(3).expect("five places").to_string()).collect()
}

#[test]
fn p85_each_refusal_that_occurs() {
    let activate = format!("frame\t1\t1\t{ACTIVATE}\n");
    assert_eq!(numbers("frame\t2\t1\t-\nframe\t1\t2\t-\nframe\t1\t1\t00\n"), ["1", "1", "2"]);
    assert_eq!(numbers("tick\t2147483648\ntick\t2147483647\nallow\t0\nnotice\nx\n"), ["5", "0", "6", "7", "9"]);
    let due = format!("allow\t1\n{activate}tick\t60000\n{activate}tick\t60000\nallow\t1\nprohibit\t9\n");
    assert_eq!(numbers(&due), ["0", "39", "0", "4", "4", "4", "4"]);
}

#[test]
fn nine_comes_before_all_others() {
    assert!(is_bad(b"frame\t9\t9\t0A"));
    assert!(is_bad(b"allow\t01"));
    let due = format!("allow\t1\nframe\t1\t1\t{ACTIVATE}\nprohibit\t1\nframe\t1\t1\tzz\ntick\t4294967296\n");
    assert_eq!(numbers(&due), ["0", "39", "0", "9", "9"]);
}

/// Numbers of thousands of digits, and octets of all sorts.
#[test]
fn p86_no_line_stops_the_run() {
    assert!(is_bad(format!("tick\t{}", "9".repeat(4_095)).as_bytes()));
    let all: Vec<u8> = (0..=255).filter(|&octet| octet != b'\n').collect();
    assert!(is_bad(&all));
}
