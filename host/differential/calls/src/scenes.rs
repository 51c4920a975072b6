//! What the runs should come upon, beyond what the model marks.

use image::{PortKind, Session, SetKind, Side, State, IMAGE_LENGTH};
use unit::Outcome;

use crate::scene::Scene;

/// Something that a call can be, by its name.
pub(crate) type Kind = (&'static str, fn(&Scene) -> bool);

pub(crate) const LENGTHS: [Kind; 17] = [
    ("frame of 13 octets", |scene| scene.is_frame_of(13) && scene.is_refused(2)),
    ("frame of 14 octets", |scene| scene.is_frame_of(14) && scene.is_served()),
    ("frame of 2,000 octets", |scene| scene.is_frame_of(2000) && scene.is_served()),
    ("frame of 2,001 octets", |scene| scene.is_frame_of(2001) && scene.is_refused(2)),
    ("frame of 65,550 octets", |scene| scene.is_frame_of(65_550) && scene.is_refused(2)),
    ("loop of 2,000 octets", |scene| scene.writes(Outcome::Loop, 2000)),
    ("reply of 2,008 octets", |scene| scene.writes(Outcome::Reply, 2008)),
    ("output of 2,007 octets", |scene| scene.step.call.out_len() == 2007 && scene.is_refused(3)),
    ("output of 2,008 octets", |scene| scene.step.call.out_len() == 2008 && scene.answer.length() > 0),
    ("longer output", |scene| scene.step.call.out_len() > 2008 && scene.answer.length() > 0),
    ("image too short", |scene| scene.is_lent(|length| length < IMAGE_LENGTH) && scene.is_refused(8)),
    ("image too long", |scene| scene.is_lent(|length| length > IMAGE_LENGTH) && scene.is_refused(8)),
    ("image damaged", |scene| scene.is_lent(|length| length == IMAGE_LENGTH) && scene.is_refused(8)),
    ("image of another state", |scene| scene.is_lent(|_| true) && scene.before.is_some() && scene.is_served()),
    ("text of 8,192 octets", |scene| scene.is_text_of(8192) && scene.answer.reason() == 1),
    ("number of thousands of digits", |scene| scene.is_text_of(8192) && scene.answer.reason() == 2),
    ("text of 8,193 octets", |scene| scene.is_text_of(8193) && scene.answer.reason() == 5),
];

pub(crate) const STATES: [Kind; 14] = [
    ("plan over sessions", |scene| scene.is_call("make") && scene.is_served() && scene.has_before(has_session)),
    ("faulty plan over sessions", |scene| scene.answer.reason() > 0 && scene.has_before(has_session)),
    ("8 ports", |scene| scene.is_reply() && scene.has_after(|state| state.ports.len() == 8)),
    ("32 flows", |scene| scene.is_reply() && scene.has_after(|state| state.flows.len() == 32)),
    ("32 MPs", |scene| scene.is_reply() && scene.has_after(|state| state.mp_count() == 32)),
    ("16 open sessions", |scene| scene.is_reply() && scene.has_after(|state| open(state) == 16)),
    ("16 open sessions restarted", |scene| scene.is_call("restart") && scene.has_before(|state| open(state) == 16)),
    ("16 notices due after a tick", |scene| {
        scene.is_call("tick") && scene.is_served() && scene.has_after(|state| owed(state) == 16)
    }),
    ("8 notices due after a prohibit", |scene| {
        scene.is_call("prohibit") && scene.is_served() && scene.has_after(|state| owed(state) >= 8)
    }),
    ("notices of both codes", |scene| scene.is_reply() && scene.has_before(has_both_codes)),
    ("session of an S-tagged set", |scene| scene.opens(is_s_tagged)),
    ("session of an untagged set, ENNI", |scene| {
        scene.opens(|state, session| session.tag.is_none() && is_at_enni(state, session))
    }),
    ("session of the zero source", |scene| scene.opens(|_, session| session.source.number() == 0)),
    ("session of a port's address", |scene| {
        scene.opens(|state, session| state.ports.iter().any(|port| port.address == session.source))
    }),
];

pub(crate) const EVENTS: [Kind; 9] = [
    ("tick to 1 ms before an end", |scene| scene.ticks_to(1)),
    ("tick to an end", |scene| scene.ticks_to(0)),
    ("tick to 1 ms behind an end", |scene| scene.ticks_to(-1)),
    ("wrapped tick to an end", |scene| scene.ticks_to(0) && scene.elapsed().is_some_and(|(_, wraps)| wraps)),
    ("tick of 2,147,483,647 ms", |scene| scene.is_served() && scene.elapsed().is_some_and(|(ms, _)| ms == 0x7FFF_FFFF)),
    ("tick of 2,147,483,648 ms", |scene| {
        scene.is_refused(5) && scene.elapsed().is_some_and(|(ms, _)| ms == 0x8000_0000)
    }),
    ("multicast from the External side", |scene| scene.goes_on_from(Side::External)),
    ("multicast from the CEN", |scene| scene.goes_on_from(Side::Cen)),
    ("OAM under a second tag looped", |scene| scene.is_outcome(Outcome::Loop) && scene.has_oam_under_two_tags()),
];

/// The refusals, by call.
pub(crate) const REFUSALS: [(&str, &[u8]); 7] = [
    ("make", &[8]),
    ("frame", &[8, 1, 2, 3, 4]),
    ("tick", &[8, 4, 5]),
    ("allow", &[8, 4, 6]),
    ("prohibit", &[8, 4, 6]),
    ("notice", &[8, 3, 7]),
    ("restart", &[8]),
];

fn open(state: &State) -> usize {
    state.sessions.iter().filter(|session| session.is_open()).count()
}

fn owed(state: &State) -> usize {
    state.sessions.len() - open(state)
}

fn has_session(state: &State) -> bool {
    !state.sessions.is_empty()
}

fn has_both_codes(state: &State) -> bool {
    [8, 9].iter().all(|&code| state.sessions.iter().any(|session| session.notice == Some(code)))
}

fn is_s_tagged(state: &State, session: &Session) -> bool {
    state.flow(session.flow).is_some_and(|flow| flow.kind == SetKind::S)
}

fn is_at_enni(state: &State, session: &Session) -> bool {
    let port = state.flow(session.flow).and_then(|flow| state.port(flow.port));
    port.is_some_and(|port| port.kind == PortKind::Enni)
}
