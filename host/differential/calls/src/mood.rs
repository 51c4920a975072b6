//! What a run is mostly about.

use random::Random;

#[derive(Clone, Copy)]
pub(crate) struct Mood {
    /// How many testers there are.
    pub(crate) testers: u64,
    /// The seconds that they usually ask for.
    pub(crate) seconds: &'static [u32],
    /// One request in so many is a Deactivate.
    pub(crate) closing_in: usize,
    /// One frame in so many is not what it was meant to be.
    pub(crate) missing_in: usize,
    /// How many calls in a hundred are ticks.
    ticks: usize,
    /// How many in a hundred allow or prohibit, take a notice or restart.
    management: usize,
    /// How many in a hundred make a state from a text.
    makes: usize,
    /// One call in so many is lent another image.
    pub(crate) lending_in: usize,
}

pub(crate) enum Choice {
    Frame,
    Tick,
    Management,
    Make,
}

const PEACE: Mood = Mood {
    testers: 3,
    seconds: &[1, 2, 60, 86_400],
    closing_in: 6,
    missing_in: 2,
    ticks: 15,
    management: 10,
    makes: 2,
    lending_in: 100,
};

/// Many testers with long sessions, so that places run out.
const CROWD: Mood = Mood {
    testers: 24,
    seconds: &[3600, 86_399, 86_400],
    closing_in: 20,
    missing_in: 4,
    ticks: 2,
    management: 2,
    makes: 0,
    lending_in: 500,
};

/// Many testers with short sessions, so that many end at once.
const RUSH: Mood =
    Mood { testers: 20, seconds: &[1, 1, 2, 3], closing_in: 30, missing_in: 5, ticks: 6, management: 3, ..CROWD };

/// Plans and images of all sorts.
const TEXTS: Mood = Mood { makes: 60, lending_in: 10, ..PEACE };

impl Mood {
    pub(crate) fn of(random: &mut Random) -> Mood {
        random.pick(&[PEACE, PEACE, CROWD, RUSH, TEXTS, TEXTS])
    }

    pub(crate) fn choose(&self, random: &mut Random) -> Choice {
        let tick = self.makes + self.ticks;
        match random.below(100) {
            part if part < self.makes => Choice::Make,
            part if part < tick => Choice::Tick,
            part if part < tick + self.management => Choice::Management,
            _ => Choice::Frame,
        }
    }
}
