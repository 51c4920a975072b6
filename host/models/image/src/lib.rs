//! A model of a unit's stored state, written from the scope: what a state holds, when it is valid, its image, and
//! what a look at it finds. It is slow and plain, so that it can be checked by reading.

#![forbid(unsafe_code)]

mod address;
mod fault;
mod layout;
mod look;
mod plan;
mod plan_faults;
mod read;
mod session;
mod session_faults;
mod state;
mod write;

pub use address::Address;
pub use fault::Fault;
pub use layout::{Table, FLOWS, IMAGE_LENGTH, PLACES, PORTS, SESSIONS, TAIL};
pub use plan::{Flow, Mp, Port, PortKind, SetKind};
pub use read::Reading;
pub use session::{Session, Side, MOST_MS};
pub use state::State;
