//! The model's side: the state of the image that is lent, or the octets where they are no valid state's.

use model::slips::Slip;
use model::{make_refusal, Answer, Mark, Rules, Unit, IMAGE_LENGTH};

use crate::call::{Call, Play, Shown, Step};

pub(crate) struct ModelSide {
    /// What the model goes by.
    rules: Rules,
    lent: Result<Unit, Vec<u8>>,
    marks: Vec<Mark>,
}

impl Play for ModelSide {
    fn play(&mut self, step: &Step, before: &[u8]) -> Shown {
        if let Some(octets) = &step.lent {
            self.lent = self.load(octets);
        }
        let (answer, written) = self.call(&step.call);
        let behind = &before[written.len().min(before.len())..];
        Shown {
            answer: unit::Answer(answer.number()),
            out: [&written, behind].concat(),
            image: self.image(),
            breach: None,
        }
    }
}

impl ModelSide {
    /// By the scope's rules, or with a slip in them.
    pub(crate) fn new(slip: Option<Slip>) -> ModelSide {
        ModelSide { rules: slip.map_or_else(Rules::default, Slip::rules), lent: Err(Vec::new()), marks: Vec::new() }
    }

    fn image(&self) -> Vec<u8> {
        match &self.lent {
            Ok(unit) => unit.image().to_vec(),
            Err(octets) => octets.clone(),
        }
    }

    /// What the model has marked since this was last asked.
    pub(crate) fn take_marks(&mut self) -> Vec<Mark> {
        std::mem::take(&mut self.marks)
    }

    fn load(&self, octets: &[u8]) -> Result<Unit, Vec<u8>> {
        let unit = Unit::load(octets).map_err(|_| octets.to_vec())?;
        Ok(unit.going_by(self.rules.clone()))
    }

    fn make(&mut self, text: &[u8], clock: u32) -> Answer {
        let length = self.lent.as_ref().map_or_else(Vec::len, |_| IMAGE_LENGTH);
        if let Some(refused) = make_refusal(length) {
            return refused;
        }
        match Unit::make_by(self.rules.clone(), text, clock) {
            Ok(unit) => {
                self.lent = Ok(unit);
                Answer::Done
            }
            Err(fault) => {
                self.marks.extend(fault.marks());
                Answer::from(fault)
            }
        }
    }

    /// The answer, and what is written at the front of the output.
    fn call(&mut self, call: &Call) -> (Answer, Vec<u8>) {
        let without_output = |answer| (answer, Vec::new());
        let answered = match (call, &mut self.lent) {
            (Call::Make { text, clock }, _) => without_output(self.make(text, *clock)),
            (_, Err(_)) => without_output(Answer::Refused(8)),
            (Call::Frame { port, side, frame, out_len }, Ok(unit)) => unit.frame(*port, *side, frame, *out_len),
            (Call::Notice { out_len }, Ok(unit)) => unit.notice(*out_len),
            (Call::Tick { clock }, Ok(unit)) => without_output(unit.tick(*clock)),
            (Call::Allow { flow }, Ok(unit)) => without_output(unit.allow(*flow)),
            (Call::Prohibit { flow }, Ok(unit)) => without_output(unit.prohibit(*flow)),
            (Call::Restart { clock }, Ok(unit)) => without_output(unit.restart(*clock)),
        };
        if let Ok(unit) = &mut self.lent {
            self.marks.extend(unit.take_marks());
        }
        answered
    }
}
