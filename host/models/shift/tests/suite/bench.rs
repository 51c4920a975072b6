//! The paper's bench, and runs on it.

/// The file that holds the bench's plan.
pub const NAME: &[u8] = b"bench.plan";
pub const PLAN: &[u8] = b"port\t1\tuni\t020000000001\nflow\t1\t1\tc\t20\nflow\t2\t1\tc\t30\nmp\t1\tup\t4\n";
/// The frame of B1: an Activate of 60 seconds, and its reply.
pub const ACTIVATE: &str = "0200000000010200000000aa81000014890280390008010002000000000125000501\
                            0000003c00";
pub const ACTIVATED: &str = "0200000000aa02000000000181000014890280380108010002000000000125000501\
                             0000003c00";

/// The output for that input, in a folder that holds the bench's plan.
pub fn run(input: &[u8]) -> String {
    run_in(&[(NAME, PLAN)], input)
}

/// The output for that input, in a folder with these files.
pub fn run_in(files: &[(&[u8], &[u8])], input: &[u8]) -> String {
    let open = |name: &[u8]| files.iter().find(|(held, _)| *held == name).map(|(_, octets)| octets.to_vec());
    String::from_utf8(shift_model::run(input, &open)).expect("what is printed is text")
}

/// The output for those lines on the bench's plan.
pub fn run_lines(lines: &[u8]) -> String {
    run(&[NAME, b"\n", lines].concat())
}

/// Whether the line can't be read: it stands between two that can.
pub fn is_bad(line: &[u8]) -> bool {
    let told = run_lines(&[b"notice\n", line, b"\nnotice\n"].concat());
    told == "1\tnotice\trefused\t7\t-\n2\tbad\trefused\t9\t-\n3\tnotice\trefused\t7\t-\n"
}
