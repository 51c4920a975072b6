//! From an image to a unit, through the reader of images; and refusal 8.

use std::collections::BTreeMap;

use crate::session::Key;
use crate::{Answer, Flow, MpKind, Plan, Port, PortKind, Session, SetKind, Side, Unit};

pub const IMAGE_LENGTH: usize = 4096;

/// Refusal 8 of the make call, which looks at the length of the lent image only.
pub fn make_refusal(image_len: usize) -> Option<Answer> {
    (image_len != IMAGE_LENGTH).then_some(Answer::Refused(8))
}

impl Unit {
    /// The unit in the state whose image is lent, or refusal 8.
    pub fn load(image: &[u8]) -> Result<Unit, Answer> {
        let state = image::State::read(image).ok_or(Answer::Refused(8))?;
        let ports = state.ports.iter().map(|row| (u32::from(row.number), port(row))).collect();
        let flows = state.flows.iter().map(|row| (u32::from(row.number), flow(row))).collect();
        let mut unit = Unit::start(Plan { ports, flows }, state.clock);
        unit.allowed = state.allowed.iter().map(|&number| u32::from(number)).collect();
        unit.sessions = state.sessions.iter().map(session).collect();
        unit.taken = unit.sessions.len();
        Ok(unit)
    }
}

fn port(row: &image::Port) -> Port {
    let kind = match row.kind {
        image::PortKind::Uni => PortKind::Uni,
        image::PortKind::Enni => PortKind::Enni,
    };
    Port { kind, address: row.address.0 }
}

fn flow(row: &image::Flow) -> Flow {
    let kind = match row.kind {
        image::SetKind::U => SetKind::U,
        image::SetKind::C => SetKind::C,
        image::SetKind::S => SetKind::S,
    };
    let mut mps = BTreeMap::new();
    for (level, mp) in (0..).zip(row.mps) {
        if let Some(mp) = mp {
            mps.insert(level, mp_kind(mp));
        }
    }
    Flow { port: u32::from(row.port), kind, vid: row.vid, mps }
}

fn mp_kind(mp: image::Mp) -> MpKind {
    match mp {
        image::Mp::Up => MpKind::Up,
        image::Mp::Down => MpKind::Down,
        image::Mp::Mip => MpKind::Mip,
    }
}

fn session(row: &image::Session) -> (Key, Session) {
    let side = match row.side {
        image::Side::External => Side::External,
        image::Side::Cen => Side::Cen,
    };
    let session = Session {
        level: row.level,
        side,
        tag: row.tag.map(u32::to_be_bytes),
        ms_left: row.ms_left,
        notice: row.notice,
    };
    ((u32::from(row.flow), row.source.0), session)
}
