//! What a log begins with: a plan file and its name.

use model::Unit;
use random::Random;

use crate::folder::Folder;
use crate::tag::Tag;
use crate::{faulty_plans, good_plans, names};

pub(crate) struct Start {
    pub(crate) folder: Folder,
    /// The first line of the input.
    pub(crate) name: Vec<u8>,
    /// One that the log's lines are aimed at, also where they are not reached.
    pub(crate) unit: Unit,
    pub(crate) tags: Vec<Tag>,
}

pub(crate) fn any(random: &mut Random) -> Start {
    let (kind, text) = good_plans::pick(random);
    let unit = Unit::make(text.as_bytes(), 0).expect("a plan that keeps the rules");
    match random.below(13) {
        0 | 1 => faulty(text, unit, random),
        2 | 3 => unopened(text, unit, random),
        _ => opened(text.into(), unit, vec![Tag::Log(kind)], random),
    }
}

fn faulty(text: String, unit: Unit, random: &mut Random) -> Start {
    let (kind, spoil) = random.pick(&faulty_plans::KINDS);
    opened(spoil(text, random), unit, vec![Tag::Log(kind)], random)
}

/// Most names are the usual one.
fn opened(text: Vec<u8>, unit: Unit, mut tags: Vec<Tag>, random: &mut Random) -> Start {
    let usual = names::OPENED[0];
    let (kind, make) = if random.one_in(4) { random.pick(&names::OPENED) } else { usual };
    let (file, name) = make(random);
    tags.push(Tag::Log(kind));
    Start { folder: Folder::with(&file, text), name, unit, tags }
}

fn unopened(text: String, unit: Unit, random: &mut Random) -> Start {
    let (kind, make) = random.pick(&names::UNOPENED);
    let folder = Folder::with(names::USUAL, text.into());
    Start { folder, name: make(random), unit, tags: vec![Tag::Log(kind)] }
}
