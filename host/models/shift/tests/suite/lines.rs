//! P78 to P80: which lines there are, and which of them can't be read.

use crate::bench::*;

#[test]
fn the_requests_example() {
    assert_eq!(run_lines(b"allow\t1\nnotice\n"), "1\tallow\tdone\t0\t-\n2\tnotice\trefused\t7\t-\n");
}

#[test]
fn p78_a_last_line_without_lf_is_read_and_nothing_is_no_line() {
    assert_eq!(run_lines(b"notice"), "1\tnotice\trefused\t7\t-\n");
    assert_eq!(run_lines(b"notice\n"), "1\tnotice\trefused\t7\t-\n");
    assert_eq!(run_lines(b"notice\n\n"), "1\tnotice\trefused\t7\t-\n2\tbad\trefused\t9\t-\n");
    assert_eq!(run_lines(b""), "");
    assert_eq!(run(NAME), "");
}

/// A frame's line with so many hex digits.
fn frame_line(place: &str, digits: usize) -> Vec<u8> {
    format!("frame\t{place}\t{}", "0".repeat(digits)).into_bytes()
}

#[test]
fn p79_a_line_holds_at_most_4100_octets_without_its_lf() {
    let (longest, longer) = (frame_line("1\t1", 4_090), frame_line("10\t1", 4_090));
    assert_eq!((longest.len(), longer.len()), (4_100, 4_101));
    assert_eq!(run_lines(&[&longest[..], b"\n"].concat()), "1\tframe\trefused\t2\t-\n");
    assert_eq!(run_lines(&longest), "1\tframe\trefused\t2\t-\n");
    assert!(is_bad(&longer));
    assert!(is_bad(&frame_line("1\t1", 4_092)));
}

#[test]
fn p79_a_longer_line_is_one_bad_line() {
    assert!(is_bad(&b"notice\t".repeat(600)));
    assert!(is_bad(&vec![b'x'; 200_000]));
}

#[test]
fn p80_an_empty_line_is_numbered_and_bad() {
    assert!(is_bad(b""));
}

#[test]
fn p80_so_is_one_with_a_carriage_return_blanks_or_a_tab_too_many() {
    let lines =
        ["notice\r", "\r", " notice", "notice ", " ", "notice\t", "\tnotice", "tick\t\t5", "tick\t5\t", "tick 5"];
    for line in lines {
        assert!(is_bad(line.as_bytes()), "{line:?}");
    }
}
