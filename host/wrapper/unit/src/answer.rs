//! What a call answers: one number, and a view of it.

use std::fmt;

#[derive(Clone, Copy, Debug, PartialEq, Eq)]
pub struct Answer(pub u64);

/// What the host does.
#[derive(Clone, Copy, Debug, PartialEq, Eq)]
pub enum Outcome {
    Refused,
    Forward,
    Drop,
    Loop,
    Reply,
    ReplyAndForward,
    Done,
    PlanFault,
}

impl Answer {
    /// None where the number is no answer's.
    pub fn outcome(self) -> Option<Outcome> {
        use Outcome::*;
        let outcomes = [Refused, Forward, Drop, Loop, Reply, ReplyAndForward, Done, PlanFault];
        outcomes.get(usize::from(self.octet(0))).copied()
    }

    /// The number of the refusal; 0 of any other outcome.
    pub fn refusal(self) -> u8 {
        self.of(Outcome::Refused)
    }

    /// The reason of a plan's fault; 0 of any other outcome.
    pub fn reason(self) -> u8 {
        self.of(Outcome::PlanFault)
    }

    /// The faulty line of a plan, counted from 1; 0 where it is the text as a whole, or no plan's fault.
    pub fn line(self) -> u32 {
        match self.outcome() {
            Some(Outcome::PlanFault) => self.upper(),
            _ => 0,
        }
    }

    /// How many octets were written at the front of the output.
    pub fn length(self) -> usize {
        match self.outcome() {
            Some(Outcome::PlanFault) => 0,
            _ => self.upper() as usize,
        }
    }

    /// The port that a notice goes to; 0 of any other answer.
    pub fn port(self) -> u8 {
        self.octet(2)
    }

    /// The side that a notice goes to; 0 of any other answer.
    pub fn side(self) -> u8 {
        self.octet(3)
    }

    fn of(self, outcome: Outcome) -> u8 {
        match self.outcome() == Some(outcome) {
            true => self.octet(1),
            false => 0,
        }
    }

    fn octet(self, index: usize) -> u8 {
        self.0.to_le_bytes()[index]
    }

    fn upper(self) -> u32 {
        (self.0 >> 32) as u32
    }
}

impl fmt::Display for Answer {
    fn fmt(&self, f: &mut fmt::Formatter) -> fmt::Result {
        match self.outcome() {
            Some(Outcome::Refused) => write!(f, "refused, number {}", self.refusal())?,
            Some(Outcome::PlanFault) => write!(f, "plan fault, line {}, reason {}", self.line(), self.reason())?,
            Some(outcome) => write!(f, "{outcome:?}, {} octets", self.length())?,
            None => write!(f, "no answer")?,
        }
        if self.port() != 0 {
            write!(f, ", to port {}, side {}", self.port(), self.side())?;
        }
        write!(f, " ({:#018X})", self.0)
    }
}
