//! A model of the responder for latching loopback, written without a look at definitions or code (docs/TESTING.md). It
//! is slow and plain, so that it can be checked by reading. It goes by a value of rules, by default the scope's.

#![forbid(unsafe_code)]

#[macro_use]
mod listed;

mod address;
mod answer;
mod arrival;
mod asked;
mod calls;
mod data;
mod detail;
mod flaw;
mod frame;
mod image_read;
mod image_write;
mod machine;
mod management;
mod mark;
mod meeting;
mod notice;
mod opening;
mod plan;
mod plan_fields;
mod plan_flaws;
mod plan_read;
mod plan_rules;
mod record;
mod refusal;
mod reply;
mod reply_parts;
mod request;
mod request_read;
mod rules;
mod session;
mod set;
pub mod slips;
mod target;
mod time;
mod tlv;
mod unit;

pub use address::Address;
pub use answer::Answer;
pub use detail::Detail;
pub use flaw::Flaw;
pub use image_read::{make_refusal, IMAGE_LENGTH};
pub use mark::Mark;
pub use meeting::{Event, Request, Standing, State};
pub use plan::{Flow, MpKind, Plan, Port, PortKind, SetKind, Side};
pub use plan_read::PlanFault;
pub use rules::Rules;
pub use session::Session;
pub use set::NoSet;
pub use target::NotForMp;
pub use tlv::Malformed;
pub use unit::Unit;
