//! Whole plan texts with what is expected of them.

use crate::texts::{FLOW_1, FOURTH_LINES, PORT_1, PORT_2};

/// A text, and the line and reason of its fault; 0 and 0 where there is none.
pub type Listed = (Vec<u8>, u32, u8);

pub fn all() -> Vec<Listed> {
    let mut all: Vec<Listed> = FOURTH_LINES.iter().map(fourth).collect();
    all.extend(lengths());
    all.extend(counted_mps());
    all.extend(others());
    all
}

fn fourth(&(line, reason): &(&str, u8)) -> Listed {
    let text = [PORT_1, PORT_2, FLOW_1, line].concat();
    (text.into_bytes(), if reason == 0 { 0 } else { 4 }, reason)
}

/// Texts of 8,192 and of 8,193 octets: only the longer one is judged by its length.
fn lengths() -> Vec<Listed> {
    let long = |count: usize| [PORT_1.as_bytes(), &vec![b'0'; count - PORT_1.len()]].concat();
    vec![(long(8192), 2, 1), (long(8193), 0, 5), (vec![b'\n'; 8193], 0, 5), (Vec::new(), 0, 6)]
}

/// Four flows with an MP at each level, and then one more line.
fn counted_mps() -> Vec<Listed> {
    let mut text = PORT_1.to_string();
    for flow in 1..=5 {
        text += &format!("flow\t{flow}\t1\tc\t{flow}\n");
    }
    for place in 0..31 {
        text += &format!("mp\t{}\tmip\t{}\n", 1 + place / 8, place % 8);
    }
    let last = |more: &str, line, reason| ((text.clone() + more).into_bytes(), line, reason);
    vec![
        last("mp\t4\tup\t7\n", 0, 0),
        last("mp\t4\tup\t7\nmp\t5\tup\t0\n", 39, 7),
        last("mp\t4\tup\t7\nmp\t4\tup\t7\n", 39, 4),
        last("mp\t4\tup\t7\nmp\t6\tup\t0\n", 39, 3),
        last("mp\t4\tup\t7\nmp\t5\tup\t8\n", 39, 2),
        last("mp\t4\tup\t7\nmp\t5\tup\t9", 39, 1),
    ]
}

fn others() -> Vec<Listed> {
    let two_unis = "port\t1\tuni\t020000000001\nport\t2\tuni\t020000000002\n";
    let text = |parts: &[&str], line, reason| (parts.concat().into_bytes(), line, reason);
    vec![
        text(&["flow\t1\t1\tc\t20\n"], 1, 3),
        text(&["mp\t1\tup\t4\n"], 1, 3),
        text(&["\n", PORT_1], 1, 1),
        text(&[PORT_1, "\n", PORT_2], 2, 1),
        text(&[two_unis, FLOW_1, "flow\t2\t2\tc\t20\n"], 0, 0),
        text(&[PORT_1, "flow\t1\t1\tu\t0\nflow\t2\t1\tu\t0\n"], 3, 4),
        text(&[PORT_1, FLOW_1, "mp\t1\tup\t4\nmp\t1\tmip\t4\n"], 4, 4),
        text(&[PORT_1, "bad\n", "port\t9\tuni\t020000000003\n"], 2, 1),
        (b"port\t1\tuni\t02000000000\xFF\n".to_vec(), 1, 1),
    ]
}
