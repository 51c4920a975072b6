//! From a unit to its image, by the layout.

use crate::image_read::IMAGE_LENGTH;
use crate::session::Key;
use crate::{Address, Flow, MpKind, Port, PortKind, Session, SetKind, Unit};

const ALLOWED: usize = 32;
const PLACES: usize = 64;
const PORTS: usize = 128;
const FLOWS: usize = 256;
const SESSIONS: usize = 1536;
const SESSION_ROWS: usize = 16;

impl Unit {
    pub fn image(&self) -> [u8; IMAGE_LENGTH] {
        let mut image = [0; IMAGE_LENGTH];
        image[..4].copy_from_slice(&self.clock.to_le_bytes());
        for &flow in &self.allowed {
            image[ALLOWED + flow as usize - 1] = 1;
        }
        for (place, (&number, port)) in self.plan.ports.iter().enumerate() {
            put(&mut image, PORTS + 16 * place, &port_row(number, port));
        }
        let mut flows: Vec<(&u32, &Flow)> = self.plan.flows.iter().collect();
        flows.sort_by_key(|(_, flow)| (flow.port, flow.kind, flow.vid));
        for (place, (&number, flow)) in flows.into_iter().enumerate() {
            image[PLACES + number as usize - 1] = place as u8 + 1;
            put(&mut image, FLOWS + 32 * place, &flow_row(number, flow));
        }
        for (place, (key, session)) in (0..SESSION_ROWS).zip(&self.sessions) {
            put(&mut image, SESSIONS + 32 * place, &session_row(*key, session));
        }
        image
    }
}

fn put(image: &mut [u8], start: usize, row: &[u8]) {
    image[start..start + row.len()].copy_from_slice(row);
}

fn port_row(number: u32, port: &Port) -> [u8; 8] {
    let kind = match port.kind {
        PortKind::Uni => 1,
        PortKind::Enni => 2,
    };
    let [a, b, c, d, e, f] = port.address;
    [f, e, d, c, b, a, kind, number as u8]
}

fn flow_row(number: u32, flow: &Flow) -> [u8; 16] {
    let kind = match flow.kind {
        SetKind::U => 1,
        SetKind::C => 2,
        SetKind::S => 3,
    };
    let [low, high] = flow.vid.to_le_bytes();
    let mut row = [0, number as u8, 0, 0, low, high, kind, flow.port as u8, 0, 0, 0, 0, 0, 0, 0, 0];
    for (&level, mp) in &flow.mps {
        row[8 + usize::from(level)] = match mp {
            MpKind::Up => 1,
            MpKind::Down => 2,
            MpKind::Mip => 3,
        };
    }
    row
}

fn session_row(key: Key, session: &Session) -> [u8; 20] {
    let mut row = [0; 20];
    row[..6].copy_from_slice(&lowest_first(key.1));
    row[6] = key.0 as u8;
    row[8..12].copy_from_slice(&session.ms_left.to_le_bytes());
    row[12] = session.notice.unwrap_or(0);
    row[13] = session.level;
    row[14] = session.side.number();
    if let Some([first, second, third, fourth]) = session.tag {
        row[15..].copy_from_slice(&[4, fourth, third, second, first]);
    }
    row
}

fn lowest_first(address: Address) -> Address {
    let mut octets = address;
    octets.reverse();
    octets
}
