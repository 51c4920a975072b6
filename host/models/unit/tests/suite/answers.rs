//! The answer as one number.

use model::{Answer, Unit};

#[test]
fn every_answer_has_its_number() {
    let length = 2008;
    let cases = [
        (Answer::Refused(8), 8 << 8),
        (Answer::Forward, 1),
        (Answer::Drop, 2),
        (Answer::Loop { length }, 3 | 2008 << 32),
        (Answer::Reply { length }, 4 | 2008 << 32),
        (Answer::ReplyAndForward { length }, 5 | 2008 << 32),
        (Answer::Notice { port: 8, side: 1, length: 31 }, 4 | 8 << 16 | 1 << 24 | 31 << 32),
        (Answer::Done, 6),
        (Answer::PlanFault { line: 3, reason: 7 }, 7 | 7 << 8 | 3 << 32),
    ];
    for (answer, number) in cases {
        assert_eq!(answer.number(), number, "{answer:?}");
    }
}

#[test]
fn a_plan_fault_is_an_answer() {
    let fault = Unit::make(b"", 0).expect_err("no port");
    assert_eq!(Answer::from(fault).number(), 7 | 6 << 8);
}
