//! What a look at a valid state finds.

use crate::{Flow, Session, State};

impl State {
    /// Bit 0 is 1; bits 8 to 15 are the flow's number, 0 if the set has none; 16 to 23 its MP at the level; bit 24
    /// says whether the flow's session of this source is open; bits 32 to 63 are its ms left.
    pub fn look(&self, port: u8, kind: u8, vid: u16, level: u8, source: u64) -> u64 {
        let is_asked_for = |flow: &&Flow| flow.port == port && flow.kind as u8 == kind && flow.vid == vid;
        let Some(flow) = self.flows.iter().find(is_asked_for) else {
            return 1;
        };
        let mp = flow.mp(level).map_or(0, |mp| mp as u64);
        let session = self.open_session(flow, source).map_or(0, |open| 1 << 24 | u64::from(open.ms_left) << 32);
        1 | u64::from(flow.number) << 8 | mp << 16 | session
    }

    /// All bits of the source count, so that one with more than 48 has no session.
    fn open_session(&self, flow: &Flow, source: u64) -> Option<&Session> {
        let mut of_flow = self.sessions.iter().filter(|session| session.flow == flow.number);
        of_flow.find(|session| session.source.number() == source && session.is_open())
    }
}
