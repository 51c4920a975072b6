//! P81, P82 and P87: words, numbers and hex.

use crate::bench::*;

#[test]
fn p81_a_number_is_at_most_4294967295() {
    assert_eq!(run_lines(b"allow\t4294967295\n"), "1\tallow\trefused\t6\t-\n");
    for number in ["4294967296", "4294967297", "18446744073709551617", "99999999999999999999999"] {
        assert!(is_bad(format!("allow\t{number}").as_bytes()), "{number}");
    }
}

#[test]
fn p81_numbers_are_as_in_the_plan() {
    assert_eq!(run_lines(b"tick\t0\n"), "1\ttick\tdone\t0\t-\n");
    for number in ["", "00", "01", "+1", "-1", " 1", "1 ", "0x1", "1a", "1.0", "\u{0661}"] {
        assert!(is_bad(format!("tick\t{number}").as_bytes()), "{number:?}");
        assert!(is_bad(format!("frame\t{number}\t1\t-").as_bytes()), "{number:?}");
        assert!(is_bad(format!("frame\t1\t{number}\t-").as_bytes()), "{number:?}");
    }
}

#[test]
fn p82_hex_is_lower_case_of_an_even_number_of_digits() {
    assert_eq!(run_lines(b"frame\t1\t1\t-\n"), "1\tframe\trefused\t2\t-\n");
    assert_eq!(run_lines(b"frame\t1\t1\t0a\n"), "1\tframe\trefused\t2\t-\n");
    let forwarded = "1\tframe\tforward\t0\t-\n";
    assert_eq!(run_lines(b"frame\t1\t1\t0200000000010200000000aa0800\n"), forwarded);
    for hex in ["", "0", "0A", "0a0", "0g", "0x0a", "--", "-0a", "0a-", "0a 0b", " -"] {
        assert!(is_bad(format!("frame\t1\t1\t{hex}").as_bytes()), "{hex:?}");
    }
}

#[test]
fn p87_the_six_words_are_all_events() {
    let words =
        ["frame", "tick", "allow", "prohibit", "restart", "Notice", "notices", "make", "count", "got", "shared"];
    for word in words {
        assert!(is_bad(word.as_bytes()), "{word}");
        assert!(is_bad(format!("{word}\t1\t1\t-\t1").as_bytes()), "{word}");
    }
    assert!(is_bad(b"notice\t1"));
    assert!(is_bad(b"\xEEotice"));
    assert!(is_bad(b"notice\0"));
}
