//! From octets to the state that they are the image of.

use crate::layout::{fault_at, of_flow, Table, ALLOWED, CLOCK, FLOWS, IMAGE_LENGTH, PORTS, SESSIONS};
use crate::{Address, Fault, Flow, Mp, Port, PortKind, Session, SetKind, Side, State};

/// What octets say, and what is wrong with them: nothing, exactly when they are a valid state's image.
pub struct Reading {
    pub state: State,
    pub faults: Vec<Fault>,
}

impl Reading {
    /// None if the octets are not as many as an image has, or one that stands for a choice stands for none of them.
    /// Otherwise the octets can be the image of one state only, and are compared with its image.
    pub fn of(octets: &[u8]) -> Option<Reading> {
        let octets: &[u8; IMAGE_LENGTH] = octets.try_into().ok()?;
        let state = state(octets)?;
        let image = state.image();
        let differing = (0..IMAGE_LENGTH).filter(|&index| octets[index] != image[index]);
        let faults = state.faults().into_iter().chain(differing.map(fault_at)).collect();
        Some(Reading { state, faults })
    }
}

impl State {
    /// The valid state whose image the octets are.
    pub fn read(octets: &[u8]) -> Option<State> {
        let reading = Reading::of(octets)?;
        reading.faults.is_empty().then_some(reading.state)
    }
}

fn state(octets: &[u8; IMAGE_LENGTH]) -> Option<State> {
    Some(State {
        ports: rows(octets, PORTS).map(port).collect::<Option<_>>()?,
        flows: rows(octets, FLOWS).map(flow).collect::<Option<_>>()?,
        clock: number(&octets[CLOCK]) as u32,
        allowed: (1..=32).filter(|&flow| octets[of_flow(ALLOWED, flow)] == 1).collect(),
        sessions: rows(octets, SESSIONS).map(session).collect::<Option<_>>()?,
    })
}

/// The rows of a table that are not empty.
fn rows(octets: &[u8], table: Table) -> impl Iterator<Item = &[u8]> {
    octets[table.span()].chunks(table.width).filter(|row| number(&row[..8]) != 0)
}

fn port(row: &[u8]) -> Option<Port> {
    Some(Port { number: row[7], kind: port_kind(row[6])?, address: Address::of(number(&row[..6])) })
}

fn flow(row: &[u8]) -> Option<Flow> {
    let mut mps = [None; 8];
    for (mp, &octet) in mps.iter_mut().zip(&row[8..16]) {
        *mp = mp_or_none(octet)?;
    }
    Some(Flow { number: row[1], port: row[7], kind: set_kind(row[6])?, vid: number(&row[4..6]) as u16, mps })
}

fn session(row: &[u8]) -> Option<Session> {
    Some(Session {
        flow: number(&row[6..8]).try_into().ok()?,
        source: Address::of(number(&row[..6])),
        level: row[13],
        side: side(row[14])?,
        tag: tag(row[15], number(&row[16..20]) as u32)?,
        ms_left: number(&row[8..12]) as u32,
        notice: (row[12] != 0).then_some(row[12]),
    })
}

fn port_kind(octet: u8) -> Option<PortKind> {
    match octet {
        1 => Some(PortKind::Uni),
        2 => Some(PortKind::Enni),
        _ => None,
    }
}

fn set_kind(octet: u8) -> Option<SetKind> {
    match octet {
        1 => Some(SetKind::U),
        2 => Some(SetKind::C),
        3 => Some(SetKind::S),
        _ => None,
    }
}

fn mp_or_none(octet: u8) -> Option<Option<Mp>> {
    match octet {
        0 => Some(None),
        1 => Some(Some(Mp::Up)),
        2 => Some(Some(Mp::Down)),
        3 => Some(Some(Mp::Mip)),
        _ => None,
    }
}

fn side(octet: u8) -> Option<Side> {
    match octet {
        0 => Some(Side::External),
        1 => Some(Side::Cen),
        _ => None,
    }
}

fn tag(count: u8, octets: u32) -> Option<Option<u32>> {
    match count {
        0 => Some(None),
        4 => Some(Some(octets)),
        _ => None,
    }
}

/// Octets as one number, the lowest first.
fn number(octets: &[u8]) -> u64 {
    octets.iter().rev().fold(0, |number, &octet| number << 8 | u64::from(octet))
}
