//! The run: the plan, then line by line.

use model::{Answer, Unit};

use crate::event::Event;
use crate::lines::Numbered;
use crate::plan::Open;
use crate::printing::Told;
use crate::Rules;

#[derive(Clone, Debug)]
pub(crate) struct RunRules {
    /// SHIFT-6: the clock that the unit is made at.
    pub(crate) clock: fn(&Rules, &[Numbered]) -> u32,
    pub(crate) call: fn(&mut Unit, &Event) -> (Answer, Vec<u8>),
    /// SHIFT-21: the word and the answer of a line that can't be read.
    pub(crate) unreadable: fn(&Unit, &[u8]) -> (Vec<u8>, Answer),
    /// Whether the run goes on behind a line: always.
    pub(crate) goes_on: fn(&[u8], &Told) -> bool,
}

impl Default for RunRules {
    fn default() -> RunRules {
        RunRules {
            clock: |_, _| 0,
            call: |unit, event| event.call(unit),
            unreadable: |_, _| (b"bad".to_vec(), Answer::Refused(9)),
            goes_on: |_, _| true,
        }
    }
}

/// The output for that input, where a file's octets are got by its name.
pub fn run(input: &[u8], open: Open) -> Vec<u8> {
    run_by(&Rules::default(), input, open)
}

/// The same by these rules.
pub fn run_by(rules: &Rules, input: &[u8], open: Open) -> Vec<u8> {
    let lines = (rules.lines.cut)(input);
    let (first_line, others) = lines.split_first().map_or((&b""[..], &[][..]), |(first, others)| (*first, others));
    let Some(text) = rules.plan.text_of(first_line, rules.lines.most_octets, open) else {
        return Vec::new();
    };
    let events = (rules.lines.numbered)(others);
    let printed = match Unit::make(&text, (rules.run.clock)(rules, &events)) {
        Ok(unit) => play(rules, unit, &events),
        Err(fault) => (rules.plan.fault)(&fault, &events),
    };
    (rules.printing.whole)(printed)
}

/// The lines printed.
fn play(rules: &Rules, mut unit: Unit, lines: &[Numbered]) -> Vec<Vec<u8>> {
    let mut printed = Vec::new();
    for &(number, line) in lines {
        let told = told(rules, &mut unit, number, line);
        printed.push(rules.printing.line(&told));
        if !(rules.run.goes_on)(line, &told) {
            break;
        }
    }
    printed
}

fn told(rules: &Rules, unit: &mut Unit, number: usize, line: &[u8]) -> Told {
    match read(rules, line) {
        Some(event) => {
            let (answer, octets) = (rules.run.call)(unit, &event);
            Told { number, word: event.word().into(), event: Some(event), answer, octets }
        }
        None => {
            let (word, answer) = (rules.run.unreadable)(unit, line);
            Told { number, event: None, word, answer, octets: Vec::new() }
        }
    }
}

/// A line that is too long can't be read, whatever stands in it.
pub(crate) fn read(rules: &Rules, line: &[u8]) -> Option<Event> {
    if line.len() > rules.lines.most_octets {
        return None;
    }
    Event::read(&rules.fields, (rules.lines.content)(line))
}
