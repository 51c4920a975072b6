//! From a state to its image.

use crate::layout::{of_flow, ALLOWED, CLOCK, FLOWS, IMAGE_LENGTH, PLACES, PORTS, SESSIONS};
use crate::{Address, Flow, Port, Session, State};

impl State {
    /// The one image of a valid state. Rows too many for their table, which no valid state has, run on behind it.
    pub fn image(&self) -> [u8; IMAGE_LENGTH] {
        let state = self.ordered();
        let mut octets = [0; IMAGE_LENGTH];
        octets[CLOCK].copy_from_slice(&state.clock.to_le_bytes());
        for &flow in &state.allowed {
            octets[of_flow(ALLOWED, flow)] = 1;
        }
        for (place, port) in state.ports.iter().enumerate() {
            octets[PORTS.row(place)].copy_from_slice(&port_row(port));
        }
        for (place, flow) in (0u8..).zip(&state.flows) {
            octets[of_flow(PLACES, flow.number)] = place + 1;
            octets[FLOWS.row(usize::from(place))].copy_from_slice(&flow_row(flow));
        }
        for (place, session) in state.sessions.iter().enumerate() {
            octets[SESSIONS.row(place)].copy_from_slice(&session_row(session));
        }
        octets
    }
}

fn port_row(port: &Port) -> [u8; 16] {
    let mut row = [0; 16];
    row[..6].copy_from_slice(&lowest_first(port.address));
    row[6] = port.kind as u8;
    row[7] = port.number;
    row
}

fn flow_row(flow: &Flow) -> [u8; 32] {
    let mut row = [0; 32];
    row[1] = flow.number;
    row[4..6].copy_from_slice(&flow.vid.to_le_bytes());
    row[6] = flow.kind as u8;
    row[7] = flow.port;
    for (octet, mp) in row[8..16].iter_mut().zip(flow.mps) {
        *octet = mp.map_or(0, |mp| mp as u8);
    }
    row
}

fn session_row(session: &Session) -> [u8; 32] {
    let mut row = [0; 32];
    row[..6].copy_from_slice(&lowest_first(session.source));
    row[6] = session.flow;
    row[8..12].copy_from_slice(&session.ms_left.to_le_bytes());
    row[12] = session.notice.unwrap_or(0);
    row[13] = session.level;
    row[14] = session.side as u8;
    if let Some(tag) = session.tag {
        row[15] = 4;
        row[16..20].copy_from_slice(&tag.to_le_bytes());
    }
    row
}

fn lowest_first(address: Address) -> [u8; 6] {
    let Address(mut octets) = address;
    octets.reverse();
    octets
}
