//! From a line to its event, and from an event to the unit's call.

use model::{Answer, Unit};

use crate::fields::FieldRules;

/// What the program lends a call that has an output.
pub(crate) const OUTPUT_LENGTH: usize = 2_008;

#[derive(Clone, Debug)]
pub(crate) enum Event {
    Frame { port: u32, side: u32, octets: Vec<u8> },
    Tick { reading: u32 },
    Allow { flow: u32 },
    Prohibit { flow: u32 },
    Notice,
    Restart { reading: u32 },
}

impl Event {
    /// None where the line can't be read.
    pub(crate) fn read(rules: &FieldRules, line: &[u8]) -> Option<Event> {
        let fields = (rules.parted)(line);
        let fields: Vec<&[u8]> = fields.iter().map(Vec::as_slice).collect();
        let (number, hex) = (rules.number, rules.hex);
        match fields[..] {
            [b"frame", port, side, octets] => {
                Some(Event::Frame { port: number(port)?, side: number(side)?, octets: hex(octets)? })
            }
            [b"tick", reading] => Some(Event::Tick { reading: number(reading)? }),
            [b"allow", flow] => Some(Event::Allow { flow: number(flow)? }),
            [b"prohibit", flow] => Some(Event::Prohibit { flow: number(flow)? }),
            [b"notice"] => Some(Event::Notice),
            [b"restart", reading] => Some(Event::Restart { reading: number(reading)? }),
            _ => None,
        }
    }

    pub(crate) fn word(&self) -> &'static str {
        match self {
            Event::Frame { .. } => "frame",
            Event::Tick { .. } => "tick",
            Event::Allow { .. } => "allow",
            Event::Prohibit { .. } => "prohibit",
            Event::Notice => "notice",
            Event::Restart { .. } => "restart",
        }
    }

    /// The answer, and the octets written.
    pub(crate) fn call(&self, unit: &mut Unit) -> (Answer, Vec<u8>) {
        let without_output = |answer| (answer, Vec::new());
        match self {
            Event::Frame { port, side, octets } => unit.frame(*port, *side, octets, OUTPUT_LENGTH),
            Event::Tick { reading } => without_output(unit.tick(*reading)),
            Event::Allow { flow } => without_output(unit.allow(*flow)),
            Event::Prohibit { flow } => without_output(unit.prohibit(*flow)),
            Event::Notice => unit.notice(OUTPUT_LENGTH),
            Event::Restart { reading } => without_output(unit.restart(*reading)),
        }
    }
}
