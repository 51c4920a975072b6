//! The run: its clock, its calls and its end.

use model::{Answer, Unit};

use super::{slip, Slip};
use crate::event::{Event, OUTPUT_LENGTH};
use crate::run::read;

pub(super) const SLIPS: [Slip; 9] = [
    slip("FirstTickSetsClock", "The clock starts at the first tick.", |rules| {
        rules.run.clock = |rules, lines| {
            let tick = |line: &[u8]| match read(rules, line) {
                Some(Event::Tick { reading }) => Some(reading),
                _ => None,
            };
            lines.iter().find_map(|(_, line)| tick(line)).unwrap_or(0)
        };
    }),
    slip("TickIsStep", "A tick's reading counts from the last one.", |rules| {
        rules.run.call = |unit, event| match event {
            Event::Tick { reading } => (unit.tick(clock(unit).wrapping_add(*reading)), Vec::new()),
            _ => event.call(unit),
        };
    }),
    slip("RestartReadingLost", "A restart starts at clock 0.", |rules| {
        rules.run.call = |unit, event| match event {
            Event::Restart { .. } => Event::Restart { reading: 0 }.call(unit),
            _ => event.call(unit),
        };
    }),
    slip("RestartProhibits", "A restart prohibits all flows.", |rules| {
        rules.run.call = |unit, event| {
            if let Event::Restart { reading } = event {
                let flows: Vec<u32> = unit.plan().flows.keys().copied().collect();
                unit.restart(*reading);
                for flow in flows {
                    unit.prohibit(flow);
                }
            }
            event.call(unit)
        };
    }),
    slip("NoticesTakenUnasked", "Notices are taken as soon as they are due.", |rules| {
        rules.run.call = |unit, event| {
            let told = event.call(unit);
            take_all(unit);
            told
        };
    }),
    slip("NoticeTakesAll", "One `notice` takes all notices that are due.", |rules| {
        rules.run.call = |unit, event| {
            let told = event.call(unit);
            if matches!(event, Event::Notice) {
                take_all(unit);
            }
            told
        };
    }),
    slip("RoomTooSmall", "The output that is lent has 2,000 octets.", |rules| {
        rules.run.call = |unit, event| match event {
            Event::Frame { port, side, octets } => unit.frame(*port, *side, octets, 2_000),
            Event::Notice => unit.notice(2_000),
            _ => event.call(unit),
        };
    }),
    slip("BadEndsRun", "A line that can't be read ends the run.", |rules| {
        rules.run.goes_on = |_, told| told.event.is_some();
    }),
    slip("RefusalEndsRun", "A refusal by the unit ends the run.", |rules| {
        rules.run.goes_on = |_, told| told.event.is_none() || !matches!(told.answer, Answer::Refused(_));
    }),
];

/// The last accepted reading, with which the image begins.
fn clock(unit: &Unit) -> u32 {
    let [a, b, c, d, ..] = unit.image();
    u32::from_le_bytes([a, b, c, d])
}

fn take_all(unit: &mut Unit) {
    while unit.notice(OUTPUT_LENGTH).0 != Answer::Refused(7) {}
}
