//! Wrong programs: edits of the crates that the prover has to refuse, each in the function that it makes wrong. Edits of
//! functions are tried many in one check, as the proof of a function does not rest on the body of another. An edit of a
//! definition is tried alone. One of must-fail/ that changes the operations of a body is left to rt, which tries each of
//! that folder. Every check goes over the modules that the last proof of the crate left, so that only what an edit touches
//! is checked again.

#![forbid(unsafe_code)]

pub mod check;
pub mod edit;
pub mod judge;
pub mod listed;
pub mod names;
pub mod operations;
pub mod owner;
pub mod report;
pub mod round;
pub mod run;
pub mod said;
pub mod source;
pub mod subject;
