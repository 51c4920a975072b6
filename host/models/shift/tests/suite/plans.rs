//! P83: the plan's name, and plans that are faulty.

use crate::bench::*;

const EMPTY: &str = "plan\t0\t6\n";

#[test]
fn p83_what_cant_be_opened_counts_as_empty() {
    assert_eq!(run(b""), EMPTY);
    assert_eq!(run(b"\n"), EMPTY);
    assert_eq!(run(b"\nnotice\n"), EMPTY);
    assert_eq!(run(b"missing\nnotice\n"), EMPTY);
    assert_eq!(run_in(&[(b"empty", b"")], b"empty\nnotice\n"), EMPTY);
}

#[test]
fn p83_the_whole_line_is_the_name() {
    for name in ["bench.plan\r", " bench.plan", "bench.plan ", "bench.plan\tx", "bench.plan\0", "bench.plan\0x"] {
        assert_eq!(run(&[name.as_bytes(), b"\nnotice\n"].concat()), EMPTY, "{name:?}");
    }
    let refused = "1\tnotice\trefused\t7\t-\n";
    for name in ["a plan\r", "a\tplan", "-", "\u{e9}"] {
        let told = run_in(&[(name.as_bytes(), PLAN)], &[name.as_bytes(), b"\nnotice\n"].concat());
        assert_eq!(told, refused, "{name:?}");
    }
}

#[test]
fn p83_a_name_with_nul_or_of_over_4100_octets_cant_be_opened() {
    let open = |name: &[u8]| {
        let long = vec![b'n'; 4_100];
        let input = [name, b"\nnotice\n"].concat();
        run_in(&[(name, PLAN), (&long, PLAN)], &input)
    };
    assert_eq!(open(b"a\0b"), EMPTY);
    assert_eq!(open(&[b'n'; 4_101]), EMPTY);
    assert_eq!(open(&[b'n'; 4_100]), "1\tnotice\trefused\t7\t-\n");
}

#[test]
fn a_faulty_plan_prints_line_and_reason_and_ends_the_run() {
    let told = |text: &[u8]| run_in(&[(NAME, text)], &[NAME, b"\nnotice\n"].concat());
    assert_eq!(told(b"port\t1\tuni\t020000000001\nflow\t1\t2\tc\t20\n"), "plan\t2\t3\n");
    assert_eq!(told(b"port\t1\tuni\t020000000001"), "plan\t1\t1\n");
    assert_eq!(told(&[b'\n'; 8_192]), "plan\t1\t1\n");
    assert_eq!(told(&[b'\n'; 8_193]), "plan\t0\t5\n");
}
