//! What a call did, for a table of what was reached.

use crate::{Detail, Event, Flaw, Malformed, NoSet, NotForMp, Request, Standing, State};

#[derive(Clone, Copy, Debug, PartialEq, Eq, PartialOrd, Ord, Hash)]
pub enum Mark {
    /// The outcome of the answer, 0 to 7.
    Outcome(u8),
    /// Refusal 1 to 7; 8 is about the lent image.
    Refusal(u8),
    /// A plan fault's reason, 1 to 7.
    Reason(u8),
    /// What a plan fault's reason stood for.
    Plan(Flaw),
    /// Why a frame had no set.
    NoSet(NoSet),
    /// Why a frame was not for an MP.
    Data(NotForMp),
    /// Why a request was malformed: the first kind that applied.
    Malformed(Malformed),
    /// The response code of a reply or a notice.
    Code(u8),
    /// An entry of the table of three states and eight events.
    Entry(State, Event),
    /// A cell of the table of three requests and three columns.
    Cell(Request, Standing),
    Detail(Detail),
}

impl Mark {
    /// Every mark that can occur. A timer can expire in an active machine only, so that two of the
    /// twenty-four entries are not among them.
    pub fn all() -> Vec<Mark> {
        let mut all: Vec<Mark> = (0..=7).map(Mark::Outcome).collect();
        all.extend((1..=7).map(Mark::Refusal));
        all.extend((1..=7).map(Mark::Reason));
        all.extend(Flaw::ALL.iter().copied().map(Mark::Plan));
        all.extend(NoSet::ALL.iter().copied().map(Mark::NoSet));
        all.extend(NotForMp::ALL.iter().copied().map(Mark::Data));
        all.extend(Malformed::ALL.iter().copied().map(Mark::Malformed));
        all.extend([0, 1, 2, 4, 5, 6, 7, 8, 9, 10].map(Mark::Code));
        all.extend(Mark::entries().into_iter().filter(|entry| !Mark::never().contains(entry)));
        all.extend(Mark::cells());
        all.extend(Detail::ALL.iter().copied().map(Mark::Detail));
        all
    }

    /// The twenty-four entries.
    pub fn entries() -> Vec<Mark> {
        let of_state = |&state| Event::ALL.iter().map(move |&event| Mark::Entry(state, event));
        State::ALL.iter().flat_map(of_state).collect()
    }

    /// The entries that cannot occur.
    pub fn never() -> [Mark; 2] {
        [State::Prohibited, State::Inactive].map(|state| Mark::Entry(state, Event::Expiry))
    }

    /// The nine cells.
    pub fn cells() -> Vec<Mark> {
        let of_request = |&ask| Standing::ALL.iter().map(move |&standing| Mark::Cell(ask, standing));
        Request::ALL.iter().flat_map(of_request).collect()
    }
}
