//! Slips that a writer of the model could have made, planted in what the model says, to show that the comparison
//! would find them.

use image::{Fault, Reading, Session, SetKind, State, MOST_MS};

/// A model with one slip in it.
#[derive(Clone, Copy)]
pub enum Slip {
    /// It knows nothing of this fault.
    Blind(Fault),
    /// It takes this for a fault.
    Strict(Trait),
}

impl Slip {
    /// Whether a model with this slip takes the octets that were read.
    pub fn takes(&self, reading: &Reading) -> bool {
        match self {
            Slip::Blind(fault) => reading.faults.iter().all(|found| found == fault),
            Slip::Strict((_, is_there)) => reading.faults.is_empty() && !is_there(&reading.state),
        }
    }

    pub fn name(&self) -> String {
        match self {
            Slip::Blind(fault) => format!("blind to {fault:?}"),
            Slip::Strict((name, _)) => format!("refusing {name}"),
        }
    }

    /// All but blindness to a 17th session, for which an image has no row.
    pub fn all() -> Vec<Slip> {
        let blind = Fault::all().filter(|&fault| fault != Fault::SeventeenthSession).map(Slip::Blind);
        let strict = STRICT.into_iter().map(Slip::Strict);
        blind.chain(strict).collect()
    }
}

/// Something a state can have, by its name.
type Trait = (&'static str, fn(&State) -> bool);

/// What valid states can have, though a reader of the scope might think otherwise.
const STRICT: [Trait; 12] = [
    ("a plan without flows", |state| state.flows.is_empty()),
    ("an untagged set", |state| state.flows.iter().any(|flow| flow.kind == SetKind::U)),
    ("VID 4094", |state| state.flows.iter().any(|flow| flow.vid == 4094)),
    ("one VID on two ports", |state| {
        are_two(&state.flows, |one, other| one.vid == other.vid && one.port != other.port)
    }),
    ("32 MPs", |state| state.mp_count() == 32),
    ("16 sessions", |state| state.sessions.len() == 16),
    ("the longest time", |state| state.sessions.iter().any(|session| session.ms_left == MOST_MS)),
    ("a zero source", |state| state.sessions.iter().any(|session| session.source.number() == 0)),
    ("a port's address as source", |state| state.sessions.iter().any(|session| is_port(state, session))),
    ("one source on two flows", |state| are_two(&state.sessions, |one, other| one.source == other.source)),
    ("notices of both codes", |state| [8, 9].iter().all(|&code| is_owed(state, code))),
    ("priority bits", |state| state.sessions.iter().any(|session| session.tag.is_some_and(|tag| tag & 0xF000 != 0))),
];

/// Whether two of the items stand so to each other.
fn are_two<Item>(items: &[Item], stand_so: impl Fn(&Item, &Item) -> bool) -> bool {
    (1..items.len()).any(|place| items[..place].iter().any(|earlier| stand_so(earlier, &items[place])))
}

fn is_port(state: &State, session: &Session) -> bool {
    state.ports.iter().any(|port| port.address == session.source)
}

fn is_owed(state: &State, code: u8) -> bool {
    state.sessions.iter().any(|session| session.notice == Some(code))
}
