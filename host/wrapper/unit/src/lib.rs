//! The seven calls of the library, over slices of any length. An image is the host's, lent to each call.

mod answer;
mod calls;

pub use answer::{Answer, Outcome};
pub use calls::{allow, frame, make, notice, prohibit, restart, tick};
