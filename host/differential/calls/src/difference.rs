//! Where unit and model differ.

use std::fmt;

use model::slips::Slip;
use unit::Answer;

use crate::call::{hex, Call, Shown};

/// Where a call stands.
#[derive(Clone, Copy)]
pub(crate) struct At {
    pub(crate) seed: u64,
    /// The slip that the model makes, if any.
    pub(crate) slip: Option<Slip>,
    /// The number of the call in its run, from 1.
    pub(crate) number: usize,
}

/// The first difference of a run.
pub struct Difference {
    at: At,
    call: Call,
    unit: Answer,
    model: Answer,
    more: Vec<String>,
}

impl Difference {
    /// The difference between what both sides show of a call, if there is one.
    pub(crate) fn between(at: At, call: &Call, unit: &Shown, model: &Shown) -> Option<Difference> {
        let is_same = unit.answer == model.answer && unit.out == model.out && unit.image == model.image;
        if is_same && unit.breach.is_none() {
            return None;
        }
        let places = [("output", first(&unit.out, &model.out)), ("image", first(&unit.image, &model.image))];
        let octets = places.into_iter().filter_map(|(what, place)| Some(format!("{what}: {}", place?)));
        let more = octets.chain(unit.breach.map(str::to_string)).collect();
        Some(Difference { at, call: call.clone(), unit: unit.answer, model: model.answer, more })
    }
}

/// The first octet that differs.
fn first(unit: &[u8], model: &[u8]) -> Option<String> {
    if unit.len() != model.len() {
        return Some(format!("the unit has {} octets, the model {}", unit.len(), model.len()));
    }
    let index = (0..unit.len()).find(|&index| unit[index] != model[index])?;
    let around = index.saturating_sub(4)..unit.len().min(index + 12);
    let (unit_octet, model_octet, start) = (unit[index], model[index], around.start);
    let (unit, model) = (hex(&unit[around.clone()]), hex(&model[around]));
    Some(format!(
        "octet {index} is {unit_octet:02X} of the unit, {model_octet:02X} of the model; from octet {start} on\n\
         \x20 unit  {unit}\n\
         \x20 model {model}"
    ))
}

impl fmt::Display for Difference {
    fn fmt(&self, f: &mut fmt::Formatter) -> fmt::Result {
        writeln!(f, "difference at seed {}, call {}: {}", self.at.seed, self.at.number, self.call)?;
        writeln!(f, "unit:  {}", self.unit)?;
        writeln!(f, "model: {}", self.model)?;
        for line in &self.more {
            writeln!(f, "{line}")?;
        }
        write!(f, "once more: make soak SEED={}", self.at.seed)?;
        self.at.slip.map_or(Ok(()), |slip| write!(f, " SLIP={}", slip.name))
    }
}
