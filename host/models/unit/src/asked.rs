//! Which frames are good requests, answered or not.

use crate::{Request, Unit};

impl Unit {
    /// Where the PDU starts in a frame that is a well-formed request of type 1 to 3 for an MP, with 12 PDU octets or
    /// more; none in any other frame.
    pub fn request_in(&self, port: u32, side: u32, frame: &[u8]) -> Option<usize> {
        let (port, side) = self.place(port, side)?;
        if !self.is_length(frame.len()) {
            return None;
        }
        let arrival = self.arrival(port, side, frame).ok()?;
        let target = (self.rules.targets.find)(self, &arrival).ok()?;
        if target.pdu.len() < self.rules.requests.least_pdu {
            return None;
        }
        let reading = self.reading(&arrival, &target);
        let is_asked = Request::of(reading.message_type).is_some() && reading.malformed.is_none();
        is_asked.then_some(frame.len() - target.pdu.len())
    }
}
