//! A log made up from a seed: the input of a run, the folder it is run in, and how it is handed over.

use model::Unit;
use random::Random;
use shift_model::{run_by, Rules};

use crate::bad::{self, Of};
use crate::event::Event;
use crate::folder::Folder;
use crate::handing::{Handing, BY_OCTETS, WAYS};
use crate::tag::{Name, Tag};
use crate::{host, long, plans};

/// One log in so many is short, and handed over octet by octet.
const BY_OCTETS_IN: u64 = 70;
const MOST_BY_OCTETS: usize = 4_000;
/// Inputs that have no lines behind the plan's name, or not even that.
pub(crate) const BARE: [Name; 3] = ["no input", "name alone, without LF", "name alone, with LF"];
/// Logs whose last line is not ended.
pub(crate) const OPEN_END: Name = "last line without LF";

pub struct Log {
    pub seed: u64,
    pub(crate) folder: Folder,
    pub(crate) input: Vec<u8>,
    pub(crate) handing: Handing,
    pub(crate) tags: Vec<Tag>,
}

impl Log {
    pub fn of(seed: u64) -> Log {
        let mut random = Random::of(seed);
        let plans::Start { folder, name, unit, tags } = plans::any(&mut random);
        let mut scribe = Scribe { random, unit, input: name, count: 0, tags };
        match scribe.random.below(30) {
            0 => scribe.leave_bare(),
            _ => scribe.write(seed.is_multiple_of(BY_OCTETS_IN)),
        }
        let Scribe { mut random, input, mut tags, .. } = scribe;
        let is_by_octets = seed.is_multiple_of(BY_OCTETS_IN) && input.len() <= MOST_BY_OCTETS;
        let (way, hand) = if is_by_octets { BY_OCTETS } else { random.pick(&WAYS) };
        tags.push(Tag::Log(way));
        Log { seed, folder, handing: hand(&input, &mut random), input, tags }
    }

    /// What the model prints for it by these rules.
    pub fn told(&self, rules: &Rules) -> Vec<u8> {
        run_by(rules, &self.input, &|name| self.folder.open(name))
    }
}

/// Writes the lines one after the other.
struct Scribe {
    random: Random,
    /// In the state that it will be in at the next line.
    unit: Unit,
    input: Vec<u8>,
    count: usize,
    tags: Vec<Tag>,
}

impl Scribe {
    fn leave_bare(&mut self) {
        let kind = self.random.pick(&BARE);
        if kind == BARE[0] {
            self.input.clear();
        }
        if kind == BARE[2] {
            self.input.push(b'\n');
        }
        self.tags.push(Tag::Log(kind));
    }

    fn write(&mut self, is_short: bool) {
        let lines = if is_short { 5 } else { self.random.pick(&[5, 8, 12, 20, 30, 40, 60]) };
        let is_far = !is_short && self.random.one_in(8);
        for event in host::opening(&self.unit, lines / 4, &mut self.random) {
            self.event(event, None);
        }
        while self.count < lines {
            match self.random.below(40) {
                0 if !is_short => self.long_read(),
                1 | 2 if !is_short => self.long_bad(is_far),
                3..=12 => self.bad(),
                _ => {
                    let (event, kind) = host::any(&self.unit, &mut self.random);
                    self.event(event, kind);
                }
            }
        }
        self.end();
    }

    /// Adds a line; its number.
    fn line(&mut self, line: &[u8]) -> usize {
        self.input.push(b'\n');
        self.input.extend(line);
        self.count += 1;
        self.count
    }

    fn event(&mut self, event: Event, kind: Option<Name>) {
        event.happen_to(&mut self.unit);
        let number = self.line(&event.line());
        self.tags.extend(kind.map(|kind| Tag::Read(number, kind)));
    }

    fn bad(&mut self) {
        let (kind, of, spoil) = self.random.pick(&bad::kinds());
        let mut fields = host::any(&self.unit, &mut self.random).0.fields();
        while of == Of::Number && fields.len() < 2 || of == Of::Frame && fields.len() < 4 {
            fields = host::any(&self.unit, &mut self.random).0.fields();
        }
        let line = spoil(fields, &mut self.random);
        let number = self.line(&line);
        self.tags.push(Tag::Bad(number, kind));
    }

    fn long_read(&mut self) {
        let (kind, make) = self.random.pick(&long::READ);
        let line = make(0, &mut self.random);
        let number = self.line(&line);
        self.tags.push(Tag::Read(number, kind));
    }

    fn long_bad(&mut self, is_far: bool) {
        let (kind, make) = self.random.pick(&long::BAD);
        let beyond = if is_far { long::beyond(&mut self.random) } else { self.random.below(300) };
        let line = make(beyond, &mut self.random);
        let number = self.line(&line);
        self.tags.push(Tag::Bad(number, kind));
    }

    /// The last line is ended, or not.
    fn end(&mut self) {
        match self.random.one_in(4) && !self.input.ends_with(b"\n") {
            true => self.tags.push(Tag::Log(OPEN_END)),
            false => self.input.push(b'\n'),
        }
    }
}
