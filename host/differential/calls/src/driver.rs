//! What is called next, from a seed and the images that come about.

use image::State;
use random::Random;

use crate::call::{Call, Step};
use crate::mood::{Choice, Mood};
use crate::{clocks, frames, lending, outside, plans, texts};

pub(crate) struct Driver {
    random: Random,
    mood: Mood,
    /// The state of the last image that was a valid state's.
    state: State,
    image: Vec<u8>,
    is_valid: bool,
    /// Steps that come before any others, the first one last.
    waiting: Vec<Step>,
}

impl Driver {
    /// A run begins with a plan that is made, or with an image of any state.
    pub(crate) fn start(seed: u64) -> Driver {
        let mut random = Random::of(seed);
        let (mood, state) = (Mood::of(&mut random), plans::good(&mut random));
        let mut driver = Driver { random, mood, state, image: Vec::new(), is_valid: false, waiting: Vec::new() };
        if driver.random.one_in(3) {
            let call = driver.call();
            driver.waiting.push(Step { lent: Some(driver.state.image().to_vec()), call });
        } else {
            driver.make_good(driver.state.clone());
            let lent = lending::meaningless(&mut driver.random);
            driver.waiting.last_mut().expect("a plan is made").lent = Some(lent);
        }
        driver
    }

    /// Takes note of the image as it is now.
    pub(crate) fn look(&mut self, image: &[u8]) {
        if self.image == image {
            return;
        }
        self.image = image.to_vec();
        let state = State::read(image);
        self.is_valid = state.is_some();
        self.state = state.unwrap_or_else(|| self.state.clone());
    }

    /// The state of the image that was last looked at.
    pub(crate) fn state(&self) -> Option<&State> {
        Some(&self.state).filter(|_| self.is_valid)
    }

    pub(crate) fn next(&mut self) -> Step {
        if let Some(step) = self.waiting.pop() {
            return step;
        }
        let call = self.call();
        Step { lent: self.lent(), call }
    }

    /// Another image now and then; the last valid one soon after one that is not.
    fn lent(&mut self) -> Option<Vec<u8>> {
        if !self.is_valid && self.random.one_in(4) {
            return Some(self.state.image().to_vec());
        }
        let is_other = self.random.one_in(self.mood.lending_in);
        is_other.then(|| lending::other(&self.state, &mut self.random))
    }

    fn call(&mut self) -> Call {
        let Driver { random, mood, state, .. } = self;
        let is_due = state.sessions.iter().any(|session| !session.is_open());
        if is_due && !random.one_in(3) {
            return Call::Notice { out_len: outside::out_len(random) };
        }
        match mood.choose(random) {
            Choice::Frame => frames::any(state, mood, random),
            Choice::Tick => Call::Tick { clock: clocks::next(state, random) },
            Choice::Management => outside::management(state, random),
            Choice::Make => self.make(),
        }
    }

    fn make(&mut self) -> Call {
        if self.random.one_in(8) {
            let plan = plans::good(&mut self.random);
            self.make_good(plan);
        }
        Call::Make { text: texts::any(&mut self.random), clock: clocks::first(&mut self.random) }
    }

    /// Makes a state of that plan next, and allows most of its flows.
    fn make_good(&mut self, plan: State) {
        let random = &mut self.random;
        let allowed = plan.flows.iter().filter(|_| !random.one_in(8));
        self.waiting = allowed.map(|flow| Call::Allow { flow: u32::from(flow.number) }.step()).collect();
        let text = plans::lines(&plan, random).concat();
        self.waiting.push(Call::Make { text, clock: clocks::first(random) }.step());
    }
}
