//! P87, and what the outcomes print.

use crate::bench::*;

#[test]
fn p87_a_notice_is_a_reply_without_port_and_side() {
    let told = run_lines(format!("allow\t1\nframe\t1\t1\t{ACTIVATE}\ntick\t60000\nnotice\nnotice\n").as_bytes());
    let lines: Vec<&str> = told.lines().collect();
    assert_eq!(lines[1], format!("2\tframe\treply\t39\t{ACTIVATED}"));
    assert_eq!(lines[2], "3\ttick\tdone\t0\t-");
    assert_eq!(
        lines[3],
        "4\tnotice\treply\t31\t0200000000aa0200000000018100001489028038000802080200000000010\
                          0"
    );
    assert_eq!(lines[4], "5\tnotice\trefused\t7\t-");
}

#[test]
fn data_is_forwarded_looped_and_dropped() {
    let data = "0200000000010200000000aa8100001408000102";
    let lines = format!(
        "allow\t1\nframe\t1\t1\t{data}\nframe\t1\t1\t{ACTIVATE}\nframe\t1\t1\t{data}\nframe\t1\t0\t{data}\n\
         restart\t7\nframe\t1\t1\t{data}\n"
    );
    let told = run_lines(lines.as_bytes());
    let lines: Vec<&str> = told.lines().collect();
    assert_eq!(lines[1], "2\tframe\tforward\t0\t-");
    assert_eq!(lines[3], "4\tframe\tloop\t20\t0200000000aa0200000000018100001408000102");
    assert_eq!(lines[4], "5\tframe\tdrop\t0\t-");
    assert_eq!(lines[5], "6\trestart\tdone\t0\t-");
    assert_eq!(lines[6], "7\tframe\tforward\t0\t-");
}

/// A State request to all MPs, at a MIP.
#[test]
fn a_mip_replies_and_forwards() {
    let plan = b"port\t1\tuni\t020000000001\nflow\t1\t1\tu\t0\nmp\t1\tmip\t4\n";
    let request = "0180c200003c0200000000aa890280390008030002000000000100";
    let input = format!("p\nallow\t1\nframe\t1\t0\t{request}\n");
    let told = run_in(&[(b"p", plan)], input.as_bytes());
    let reply = "0200000000aa02000000000189028038000803000200000000012500050100000000\
                 00";
    assert_eq!(told, format!("1\tallow\tdone\t0\t-\n2\tframe\treplyforward\t35\t{reply}\n"));
}

/// The clock starts at 0, and a restart takes its reading.
#[test]
fn the_clock_starts_at_zero() {
    let told = run_lines(b"tick\t2147483648\nrestart\t2147483648\ntick\t2147483649\n");
    assert_eq!(told, "1\ttick\trefused\t5\t-\n2\trestart\tdone\t0\t-\n3\ttick\tdone\t0\t-\n");
}
