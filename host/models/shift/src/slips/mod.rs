//! Slips: plausible misreadings of the scope. Each puts something else in the place of a rule, so that tests can show
//! that a program which makes it is found out.

mod events;
mod hex;
mod lines;
mod long_lines;
mod numbers;
mod plan;
mod printing;
mod refusals;
mod running;
mod unreadable;

use crate::Rules;

pub type Slip = model::slips::Slip<Rules>;

pub fn all() -> Vec<Slip> {
    let tables: [&[Slip]; 10] = [
        &lines::SLIPS,
        &long_lines::SLIPS,
        &plan::SLIPS,
        &events::SLIPS,
        &numbers::SLIPS,
        &hex::SLIPS,
        &running::SLIPS,
        &unreadable::SLIPS,
        &refusals::SLIPS,
        &printing::SLIPS,
    ];
    tables.concat()
}

const fn slip(name: &'static str, says: &'static str, replaces: fn(&mut Rules)) -> Slip {
    Slip::new(name, says, replaces)
}
