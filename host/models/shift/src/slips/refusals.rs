//! What is printed for a refusal.

use model::Answer;

use super::{slip, Slip};
use crate::printing::{places, PrintRules, Told};

pub(super) const SLIPS: [Slip; 5] = [
    slip("RefusedWithCount", "A refusal prints a count of 0 too.", |rules| {
        rules.printing.places = |rules, told| altered(rules, told, |places| places.insert(4, b"0".to_vec()));
    }),
    slip("RefusedWithoutDash", "A refusal does not print `-`.", |rules| {
        rules.printing.places = |rules, told| altered(rules, told, |places| drop(places.pop()));
    }),
    slip("RefusedWithoutWord", "A refusal does not print the line's word.", |rules| {
        rules.printing.places = |rules, told| altered(rules, told, |places| drop(places.remove(1)));
    }),
    slip("RefusedAndNumberAsOne", "`refused` and its number stand in one place, the count behind them.", |rules| {
        rules.printing.places = |rules, told| {
            altered(rules, told, |places| {
                let number = std::mem::replace(&mut places[3], b"0".to_vec());
                places[2] = [&places[2][..], b" ", &number].concat();
            })
        };
    }),
    slip("RefusalSilent", "A refusal by the unit prints nothing but its line's number.", |rules| {
        rules.printing.places = |rules, told| altered(rules, told, |places| places.truncate(1));
    }),
];

/// The places, altered where they tell of a refusal.
fn altered(rules: &PrintRules, told: &Told, alter: impl Fn(&mut Vec<Vec<u8>>)) -> Vec<Vec<u8>> {
    let mut all = places(rules, told);
    if matches!(told.answer, Answer::Refused(_)) {
        alter(&mut all);
    }
    all
}
