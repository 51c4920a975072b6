//! The model against the rules: SHIFT-23's lines, and each kind of line.

mod bench;
mod events;
mod lines;
mod plans;
mod printed;
mod refusals;
mod slips;
