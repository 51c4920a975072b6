//! Calls, and what a side shows of one.

use std::fmt;

use unit::Answer;

#[derive(Clone, Debug)]
pub(crate) enum Call {
    Make { text: Vec<u8>, clock: u32 },
    Frame { port: u32, side: u32, frame: Vec<u8>, out_len: usize },
    Tick { clock: u32 },
    Allow { flow: u32 },
    Prohibit { flow: u32 },
    Notice { out_len: usize },
    Restart { clock: u32 },
}

/// A call, and the image that the host lends from now on, if it is another than before.
#[derive(Clone, Debug)]
pub(crate) struct Step {
    pub(crate) lent: Option<Vec<u8>>,
    pub(crate) call: Call,
}

/// What a call answered, and the whole output and image after it.
pub(crate) struct Shown {
    pub(crate) answer: Answer,
    pub(crate) out: Vec<u8>,
    pub(crate) image: Vec<u8>,
    /// A rule that was broken whatever the other side shows.
    pub(crate) breach: Option<&'static str>,
}

/// One that calls are made of.
pub(crate) trait Play {
    /// Makes the call with an output that holds these octets before it.
    fn play(&mut self, step: &Step, before: &[u8]) -> Shown;
}

impl Call {
    /// The call alone, the image being the one that the last call left.
    pub(crate) fn step(self) -> Step {
        Step { lent: None, call: self }
    }

    pub(crate) fn name(&self) -> &'static str {
        match self {
            Call::Make { .. } => "make",
            Call::Frame { .. } => "frame",
            Call::Tick { .. } => "tick",
            Call::Allow { .. } => "allow",
            Call::Prohibit { .. } => "prohibit",
            Call::Notice { .. } => "notice",
            Call::Restart { .. } => "restart",
        }
    }

    /// How long the lent output is; 0 where the call has none.
    pub(crate) fn out_len(&self) -> usize {
        match self {
            Call::Frame { out_len, .. } | Call::Notice { out_len } => *out_len,
            _ => 0,
        }
    }
}

impl fmt::Display for Call {
    fn fmt(&self, f: &mut fmt::Formatter) -> fmt::Result {
        match self {
            Call::Make { text, clock } => write!(f, "make at {clock} from the plan\n{}", text.escape_ascii()),
            Call::Frame { port, side, frame, out_len } => {
                let length = frame.len();
                write!(f, "frame at port {port}, side {side}, output of {out_len}; {length} octets:\n{}", hex(frame))
            }
            Call::Tick { clock } => write!(f, "tick {clock}"),
            Call::Allow { flow } => write!(f, "allow flow {flow}"),
            Call::Prohibit { flow } => write!(f, "prohibit flow {flow}"),
            Call::Notice { out_len } => write!(f, "take a notice, output of {out_len}"),
            Call::Restart { clock } => write!(f, "restart at {clock}"),
        }
    }
}

/// Two digits an octet.
pub(crate) fn hex(octets: &[u8]) -> String {
    let digits: Vec<String> = octets.iter().map(|octet| format!("{octet:02X}")).collect();
    digits.join(" ")
}
