//! The program stands in a pipe: it writes what it has before it waits for more.

use shift_runs::{Session, Starter};

fn session() -> Session {
    Session::start(&Starter::new()).expect("the program starts")
}

/// Hands the octets in, and reads one line.
fn ask(session: &mut Session, octets: &[u8]) -> String {
    session.hand_in(octets).expect("it reads its input");
    session.answer().expect("it answers before more is handed in")
}

#[test]
fn each_line_is_answered_before_the_next_is_handed_in() {
    let mut session = session();
    session.name_plan().expect("it reads its input");
    let long = [vec![b'x'; 9_000], vec![b'\n']].concat();
    let lines: [(&[u8], &str); 7] = [
        (b"allow\t1\n", "allow\tdone\t0"),
        (b"notice\n", "notice\trefused\t7"),
        (b"\n", "bad\trefused\t9"),
        (b"tick\t4294967295\n", "tick\trefused\t5"),
        (&long, "bad\trefused\t9"),
        (b"frame\t1\t1\t0200000000010200000000aa0800\n", "frame\tforward\t0"),
        (b"restart\t5\n", "restart\tdone\t0"),
    ];
    for (number, (line, answer)) in (1..).zip(lines) {
        assert_eq!(ask(&mut session, line), format!("{number}\t{answer}\t-\n"));
    }
}

#[test]
fn a_line_that_is_begun_does_not_hold_up_the_one_before() {
    let mut session = session();
    session.name_plan().expect("it reads its input");
    assert_eq!(ask(&mut session, b"notice\nallo"), "1\tnotice\trefused\t7\t-\n");
    assert_eq!(ask(&mut session, b"w\t1\nnotice"), "2\tallow\tdone\t0\t-\n");
    assert_eq!(ask(&mut session, b"\n"), "3\tnotice\trefused\t7\t-\n");
}

#[test]
fn a_faulty_plan_is_told_before_more_is_handed_in() {
    assert_eq!(ask(&mut session(), b"missing\n"), "plan\t0\t6\n");
}
