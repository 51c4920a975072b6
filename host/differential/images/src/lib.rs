//! What the tests share: states, valid and altered, damaged images, and the comparison of library and model.

#![forbid(unsafe_code)]

mod alter;
mod alter_session;
pub mod compare;
pub mod damage;
pub mod query;
pub mod samples;
pub mod slips;
pub mod states;

pub use random;
