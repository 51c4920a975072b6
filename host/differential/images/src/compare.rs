//! The comparison of library and model.

use image::{Reading, State};

use crate::query::Query;

pub use random::tell;

/// Whether the octets are taken for a valid state's image. Stops the test unless library and model agree on that and
/// on the answer, and the octets are the image of the state that the model reads.
pub fn is_taken(octets: &[u8], query: &Query) -> bool {
    let state = State::read(octets);
    answer(octets, state.as_ref(), query);
    if let Some(state) = &state {
        let is_its_image = state.is_valid() && state.image() == octets;
        assert!(is_its_image, "the model misreads\n{}", report(octets));
    }
    state.is_some()
}

/// What the library answers of the octets. Stops the test unless the model answers the same of the state that it reads
/// there, if any.
pub fn answer(octets: &[u8], state: Option<&State>, query: &Query) -> u64 {
    agreed(query.library(octets), octets, state, query)
}

/// The same of the library for x86-64, on the emulator.
#[cfg(not(target_arch = "x86_64"))]
pub fn emulated_answer(octets: &[u8], state: Option<&State>, query: &Query) -> u64 {
    agreed(query.emulated(octets), octets, state, query)
}

fn agreed(library: u64, octets: &[u8], state: Option<&State>, query: &Query) -> u64 {
    let model = query.model(state);
    if library != model {
        let octets = report(octets);
        panic!("the library answers {library:#X}, the model {model:#X}, to {query:#X?} of\n{octets}");
    }
    library
}

/// Octets that are not 0, sixteen a line, and what the model finds wrong with them.
fn report(octets: &[u8]) -> String {
    let mut report = String::new();
    for (place, line) in octets.chunks(16).enumerate() {
        if line.iter().any(|&octet| octet != 0) {
            report += &format!("{:4}  {line:02X?}\n", place * 16);
        }
    }
    let faults = Reading::of(octets).map(|reading| reading.faults);
    format!("{report}{} octets; faults: {faults:?}", octets.len())
}
