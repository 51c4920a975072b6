//! What a call answers.

use crate::PlanFault;

#[derive(Clone, Copy, Debug, PartialEq, Eq)]
pub enum Answer {
    Refused(u8),
    Forward,
    Drop,
    Loop {
        length: usize,
    },
    Reply {
        length: usize,
    },
    ReplyAndForward {
        length: usize,
    },
    /// The reply of a take-notice call, with the closed session's port and side.
    Notice {
        port: u32,
        side: u8,
        length: usize,
    },
    Done,
    PlanFault {
        line: u32,
        reason: u8,
    },
}

impl Answer {
    /// The outcome: 0 refused, 1 forward, 2 drop, 3 loop, 4 reply, 5 reply and forward, 6 done,
    /// 7 plan fault.
    pub fn outcome(self) -> u8 {
        match self {
            Answer::Refused(_) => 0,
            Answer::Forward => 1,
            Answer::Drop => 2,
            Answer::Loop { .. } => 3,
            Answer::Reply { .. } | Answer::Notice { .. } => 4,
            Answer::ReplyAndForward { .. } => 5,
            Answer::Done => 6,
            Answer::PlanFault { .. } => 7,
        }
    }

    /// Bits 0 to 7 the outcome, 8 to 15 the refusal or the plan fault's reason, 16 to 23 the port
    /// and 24 to 31 the side of a notice, 32 to 63 the length written or the faulty line.
    pub fn number(self) -> u64 {
        let rest = match self {
            Answer::Refused(number) => u64::from(number) << 8,
            Answer::Forward | Answer::Drop | Answer::Done => 0,
            Answer::Loop { length } | Answer::Reply { length } | Answer::ReplyAndForward { length } => {
                (length as u64) << 32
            }
            Answer::Notice { port, side, length } => {
                u64::from(port) << 16 | u64::from(side) << 24 | (length as u64) << 32
            }
            Answer::PlanFault { line, reason } => u64::from(reason) << 8 | u64::from(line) << 32,
        };
        u64::from(self.outcome()) | rest
    }
}

impl From<PlanFault> for Answer {
    fn from(fault: PlanFault) -> Answer {
        Answer::PlanFault { line: fault.line, reason: fault.reason }
    }
}
