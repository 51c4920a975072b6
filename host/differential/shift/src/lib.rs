//! The program that runs a recorded shift against its model: logs made up from a seed, run by both, and every octet of
//! what they print compared.

#![deny(unsafe_code)]

mod aim;
mod bad;
mod bad_fields;
pub mod bites;
mod coverage;
mod difference;
mod event;
mod faulty_plans;
mod folder;
mod frames;
mod good_plans;
mod handing;
mod host;
mod log;
mod long;
mod names;
mod pipe;
mod place;
mod plans;
mod program;
mod run;
mod session;
mod starter;
mod tag;

pub use coverage::Coverage;
pub use difference::Difference;
pub use log::Log;
pub use place::Place;
pub use run::{play, play_many};
pub use session::Session;
pub use starter::Starter;
