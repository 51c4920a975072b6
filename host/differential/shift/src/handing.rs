//! How the input is handed to the program: from a file, or in pieces, each when the one before was read.

use random::Random;

use crate::tag::Name;

/// A pipe takes so much at once.
pub(crate) const PIPE: usize = 65_536;
const MOST_PIECES: usize = 60;

#[derive(Clone)]
pub(crate) enum Handing {
    File,
    /// The lengths of the pieces.
    Pieces(Vec<usize>),
}

type Way = (Name, fn(&[u8], &mut Random) -> Handing);

pub(crate) const WAYS: [Way; 6] = [
    ("from a file", |_, _| Handing::File),
    ("at once", |input, _| pieces(input, || PIPE)),
    ("in a few pieces", |input, random| {
        let most = input.len() / 2 + 1;
        pieces(input, || 1 + random.below(most))
    }),
    ("in short pieces", |input, random| {
        let most = random.pick(&[2, 10, 50]);
        pieces(input, || 1 + random.below(most))
    }),
    ("in pieces of up to 64 KiB", |input, random| pieces(input, || 1 + random.below(PIPE))),
    ("cut at the ends of lines", at_line_ends),
];

/// For short inputs only: it takes long.
pub(crate) const BY_OCTETS: Way = ("octet by octet", |input, _| Handing::Pieces(vec![1; input.len()]));

/// Pieces of the lengths that are given; from some number on, as long as can be.
fn pieces(input: &[u8], mut next: impl FnMut() -> usize) -> Handing {
    let (mut lengths, mut rest) = (Vec::new(), input.len());
    while rest > 0 {
        let wanted = if lengths.len() < MOST_PIECES { next() } else { PIPE };
        let length = wanted.min(rest).min(PIPE);
        lengths.push(length);
        rest -= length;
    }
    Handing::Pieces(lengths)
}

/// Before an LF, or behind it.
fn at_line_ends(input: &[u8], random: &mut Random) -> Handing {
    let (mut cuts, every) = (Vec::new(), 1 + random.below(3));
    for (place, _) in input.iter().enumerate().filter(|(_, &octet)| octet == b'\n') {
        if random.one_in(every) {
            cuts.push(place + random.below(2));
        }
    }
    let mut done = 0;
    let mut cuts = cuts.into_iter();
    pieces(input, || {
        let cut = cuts.find(|&cut| cut > done).unwrap_or(done + PIPE);
        let length = (cut - done).min(PIPE);
        done += length;
        length
    })
}
