//! Slips: plausible misreadings of the scope. Each puts something else in the place of a rule, so that tests can show
//! that a unit which makes it is found out.

mod data;
mod finding;
mod machine;
mod management;
mod notices;
mod plan;
mod reading;
mod refusals;
mod replies;
mod reply_fields;
mod requests;
mod time;

use std::fmt;

use crate::Rules;

/// Of the rules of a model, this one's or another's.
pub struct Slip<R = Rules> {
    /// What happens that should not, in a word.
    pub name: &'static str,
    /// The same as a sentence.
    pub says: &'static str,
    replaces: fn(&mut R),
}

impl Slip {
    pub fn all() -> Vec<Slip> {
        let tables: [&[Slip]; 12] = [
            &plan::SLIPS,
            &refusals::SLIPS,
            &finding::SLIPS,
            &requests::SLIPS,
            &reading::SLIPS,
            &machine::SLIPS,
            &data::SLIPS,
            &time::SLIPS,
            &replies::SLIPS,
            &reply_fields::SLIPS,
            &notices::SLIPS,
            &management::SLIPS,
        ];
        tables.concat()
    }

    pub fn named(name: &str) -> Slip {
        let found = Slip::all().into_iter().find(|slip| slip.name == name);
        found.unwrap_or_else(|| panic!("no slip of the model is called {name}"))
    }
}

impl<R> Slip<R> {
    pub const fn new(name: &'static str, says: &'static str, replaces: fn(&mut R)) -> Slip<R> {
        Slip { name, says, replaces }
    }
}

impl<R: Default> Slip<R> {
    /// The paper's rules with this slip in them.
    pub fn rules(self) -> R {
        let mut rules = R::default();
        (self.replaces)(&mut rules);
        rules
    }
}

impl<R> Clone for Slip<R> {
    fn clone(&self) -> Slip<R> {
        *self
    }
}

impl<R> Copy for Slip<R> {}

impl<R> fmt::Debug for Slip<R> {
    fn fmt(&self, f: &mut fmt::Formatter) -> fmt::Result {
        write!(f, "{} ({})", self.name, self.says)
    }
}

const fn slip(name: &'static str, says: &'static str, replaces: fn(&mut Rules)) -> Slip {
    Slip::new(name, says, replaces)
}
