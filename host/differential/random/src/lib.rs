//! A small generator of numbers (splitmix64), the same for the same seed, and what a test tells of its run.

#![forbid(unsafe_code)]

use std::env;
use std::io::{self, Write};

pub struct Random {
    seed: u64,
}

impl Random {
    pub fn of(seed: u64) -> Random {
        Random { seed }
    }

    /// The run's numbers are those of this seed, or of the one that is given, which is told.
    pub fn for_test(name: &str, usual_seed: u64) -> Random {
        let seed = given_seed().unwrap_or(usual_seed);
        tell(&format!("{name}: seed {seed}"));
        Random::of(seed)
    }

    pub fn number(&mut self) -> u64 {
        self.seed = self.seed.wrapping_add(0x9E37_79B9_7F4A_7C15);
        let mixed = (self.seed ^ self.seed >> 30).wrapping_mul(0xBF58_476D_1CE4_E5B9);
        let mixed = (mixed ^ mixed >> 27).wrapping_mul(0x94D0_49BB_1331_11EB);
        mixed ^ mixed >> 31
    }

    pub fn below(&mut self, limit: usize) -> usize {
        (self.number() % limit as u64) as usize
    }

    pub fn octet(&mut self) -> u8 {
        self.number() as u8
    }

    pub fn one_in(&mut self, count: usize) -> bool {
        self.below(count) == 0
    }

    /// One of the items, of which there is at least one.
    pub fn pick<Item: Copy>(&mut self, items: &[Item]) -> Item {
        items[self.below(items.len())]
    }

    /// One of the items, if there are any.
    pub fn pick_mut<'a, Item>(&mut self, items: &'a mut [Item]) -> Option<&'a mut Item> {
        let index = self.below(items.len().max(1));
        items.get_mut(index)
    }

    pub fn shuffle<Item>(&mut self, items: &mut [Item]) {
        for end in (1..items.len()).rev() {
            items.swap(end, self.below(end + 1));
        }
    }
}

/// The seed that the variable SEED gives.
pub fn given_seed() -> Option<u64> {
    env::var("SEED").ok()?.parse().ok()
}

/// Prints a line of figures, also from a test that passes, whose usual output is not shown.
pub fn tell(line: &str) {
    writeln!(io::stderr(), "{line}").expect("the figures can be printed");
}
