//! The line that is printed for each line that was read.

use model::Answer;

use crate::event::Event;

/// What a line came to.
#[derive(Clone, Debug)]
pub(crate) struct Told {
    pub(crate) number: usize,
    /// None for a line that can't be read.
    pub(crate) event: Option<Event>,
    pub(crate) word: Vec<u8>,
    pub(crate) answer: Answer,
    /// Those written.
    pub(crate) octets: Vec<u8>,
}

#[derive(Clone, Debug)]
pub(crate) struct PrintRules {
    pub(crate) places: fn(&PrintRules, &Told) -> Vec<Vec<u8>>,
    pub(crate) outcome: fn(Answer) -> &'static str,
    /// The number of octets written.
    pub(crate) count: fn(usize) -> String,
    pub(crate) hex: fn(&[u8]) -> String,
    /// SHIFT-18: one tab between two places.
    pub(crate) parting: &'static [u8],
    pub(crate) ending: &'static [u8],
    /// SHIFT-1: all lines together, and no header line.
    pub(crate) whole: fn(Vec<Vec<u8>>) -> Vec<u8>,
}

impl Default for PrintRules {
    fn default() -> PrintRules {
        PrintRules {
            places,
            outcome,
            count: |octets| octets.to_string(),
            hex,
            parting: b"\t",
            ending: b"\n",
            whole: |lines| lines.concat(),
        }
    }
}

impl PrintRules {
    pub(crate) fn line(&self, told: &Told) -> Vec<u8> {
        [&(self.places)(self, told).join(self.parting)[..], self.ending].concat()
    }
}

/// SHIFT-18, SHIFT-20: the five places of a printed line.
pub(crate) fn places(rules: &PrintRules, told: &Told) -> Vec<Vec<u8>> {
    let [outcome, count, octets] = match told.answer {
        Answer::Refused(number) => ["refused".to_string(), number.to_string(), "-".to_string()],
        answer => {
            let written = &told.octets;
            [(rules.outcome)(answer).to_string(), (rules.count)(written.len()), (rules.hex)(written)]
        }
    };
    let number = told.number.to_string();
    vec![number.into_bytes(), told.word.clone(), outcome.into_bytes(), count.into_bytes(), octets.into_bytes()]
}

/// The port and the side of a notice are not printed: it is a reply.
pub(crate) fn outcome(answer: Answer) -> &'static str {
    match answer {
        Answer::Forward => "forward",
        Answer::Drop => "drop",
        Answer::Loop { .. } => "loop",
        Answer::Reply { .. } | Answer::Notice { .. } => "reply",
        Answer::ReplyAndForward { .. } => "replyforward",
        Answer::Done => "done",
        Answer::Refused(_) | Answer::PlanFault { .. } => unreachable!("it is no outcome of an event"),
    }
}

/// SHIFT-18: octets in lower-case hex, `-` for none.
pub(crate) fn hex(octets: &[u8]) -> String {
    match octets.is_empty() {
        true => "-".to_string(),
        false => octets.iter().map(|octet| format!("{octet:02x}")).collect(),
    }
}
