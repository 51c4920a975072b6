//! A model of the program that runs a recorded shift, from the octets of the input to those of the output, written
//! without a look at definitions or code (docs/TESTING.md). It is slow and plain, so that it can be checked by reading.
//! It goes by a value of rules, by default the scope's.

#![forbid(unsafe_code)]

mod event;
mod fields;
mod lines;
mod plan;
mod printing;
mod rules;
mod run;
pub mod slips;

pub use plan::Open;
pub use rules::Rules;
pub use run::{run, run_by};
