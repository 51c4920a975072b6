//! Events, their lines, and what they do to the unit that the next ones are aimed at.

use model::Unit;

const OUTPUT_LENGTH: usize = 2_008;

#[derive(Clone)]
pub(crate) enum Event {
    Frame { port: u32, side: u32, frame: Vec<u8> },
    Tick(u32),
    Allow(u32),
    Prohibit(u32),
    Notice,
    Restart(u32),
}

impl Event {
    pub(crate) fn fields(&self) -> Vec<String> {
        let with_number = |word: &str, number: &u32| vec![word.to_string(), number.to_string()];
        match self {
            Event::Frame { port, side, frame } => {
                vec!["frame".to_string(), port.to_string(), side.to_string(), hex(frame)]
            }
            Event::Tick(reading) => with_number("tick", reading),
            Event::Allow(flow) => with_number("allow", flow),
            Event::Prohibit(flow) => with_number("prohibit", flow),
            Event::Notice => vec!["notice".to_string()],
            Event::Restart(reading) => with_number("restart", reading),
        }
    }

    /// Without LF.
    pub(crate) fn line(&self) -> Vec<u8> {
        self.fields().join("\t").into_bytes()
    }

    pub(crate) fn happen_to(&self, unit: &mut Unit) {
        match self {
            Event::Frame { port, side, frame } => drop(unit.frame(*port, *side, frame, OUTPUT_LENGTH)),
            Event::Tick(reading) => _ = unit.tick(*reading),
            Event::Allow(flow) => _ = unit.allow(*flow),
            Event::Prohibit(flow) => _ = unit.prohibit(*flow),
            Event::Notice => drop(unit.notice(OUTPUT_LENGTH)),
            Event::Restart(reading) => _ = unit.restart(*reading),
        }
    }
}

fn hex(octets: &[u8]) -> String {
    match octets.is_empty() {
        true => "-".to_string(),
        false => octets.iter().map(|octet| format!("{octet:02x}")).collect(),
    }
}
