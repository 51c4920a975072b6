//! What a look asks for.

use image::State;

use crate::random::Random;
use crate::states::any_address;

#[derive(Clone, Copy, Debug)]
pub struct Query {
    pub port: u8,
    pub kind: u8,
    pub vid: u16,
    pub level: u8,
    pub source: u64,
}

impl Query {
    pub fn library(&self, octets: &[u8]) -> u64 {
        probe::look(octets, self.port, self.kind, self.vid, self.level, self.source)
    }

    /// The same of the library for x86-64, on the emulator.
    #[cfg(not(target_arch = "x86_64"))]
    pub fn emulated(&self, octets: &[u8]) -> u64 {
        let numbers = [self.port.into(), self.kind.into(), self.vid.into(), self.level.into(), self.source];
        served::call(served::Call::Look, &numbers, served::Lent { input: octets, ..Default::default() })
    }

    /// What the model says of the valid state whose image was read, or of none.
    pub fn model(&self, state: Option<&State>) -> u64 {
        state.map_or(0, |state| state.look(self.port, self.kind, self.vid, self.level, self.source))
    }

    /// Asks for what the state has, or nearly.
    pub fn random(state: &State, random: &mut Random) -> Query {
        let mut query = Query {
            port: random.below(10) as u8,
            kind: random.below(5) as u8,
            vid: random.pick(&[0, 1, 20, 4094, 4095]),
            level: random.below(8) as u8,
            source: any_address(random).number(),
        };
        query.aim_at_session(state, random);
        if random.one_in(3) {
            query.aim_at_flow(state, random);
        }
        if random.one_in(3) {
            query.miss(random);
        }
        query
    }

    fn aim_at_session(&mut self, state: &State, random: &mut Random) {
        if state.sessions.is_empty() {
            return self.aim_at_flow(state, random);
        }
        let session = random.pick(&state.sessions);
        self.level = session.level;
        self.source = session.source.number();
        if let Some(flow) = state.flow(session.flow) {
            (self.port, self.kind, self.vid) = (flow.port, flow.kind as u8, flow.vid);
        }
    }

    fn aim_at_flow(&mut self, state: &State, random: &mut Random) {
        if !state.flows.is_empty() {
            let flow = random.pick(&state.flows);
            (self.port, self.kind, self.vid) = (flow.port, flow.kind as u8, flow.vid);
        }
    }

    fn miss(&mut self, random: &mut Random) {
        match random.below(8) {
            0 => self.port = random.below(10) as u8,
            1 => self.port = random.octet(),
            2 => self.kind = random.below(5) as u8,
            3 => self.kind = random.octet(),
            4 => self.vid ^= 1 << random.below(16),
            5 => self.level = random.octet(),
            6 => self.level ^= 1 << random.below(8),
            _ => self.source ^= 1 << random.below(48),
        }
    }
}
