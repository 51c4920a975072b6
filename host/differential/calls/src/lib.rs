//! The unit against the model, call by call: every answer, every octet of the output and every octet of the image.

#![forbid(unsafe_code)]

mod aim;
pub mod bites;
mod call;
mod clocks;
mod coverage;
mod data;
mod difference;
mod draft;
mod driver;
#[cfg(not(target_arch = "x86_64"))]
mod emulated;
mod fields;
mod frames;
pub mod later;
mod lending;
mod lengths;
mod lent;
mod lines;
mod miss;
mod miss_pdu;
mod model_side;
mod mood;
mod outside;
mod pdu;
mod plans;
mod run;
mod scene;
mod scenes;
mod testers;
mod texts;
mod tlvs;
mod unit_side;

pub use coverage::Coverage;
pub use difference::Difference;
#[cfg(not(target_arch = "x86_64"))]
pub use run::play_emulated;
pub use run::{play, CALLS_A_RUN};
