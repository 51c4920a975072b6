//! Names of plan files: ones that are opened, and ones that can't be.

use random::Random;

use crate::folder::{BELOW, MOST_NAME};
use crate::tag::Name;

/// The name that a file has unless it is told otherwise.
pub(crate) const USUAL: &[u8] = b"bench.plan";
/// One of an odd length.
const ODD: &[u8] = b"bench.plan1";
const MOST_LINE: usize = 4_100;

/// Makes a file's own name, and the line that it is opened by.
type Naming = fn(&mut Random) -> (Vec<u8>, Vec<u8>);
/// Makes a line.
type Line = fn(&mut Random) -> Vec<u8>;

pub(crate) const OPENED: [(Name, Naming); 7] = [
    ("name as it stands", |_| same(USUAL)),
    ("name with odd octets", |random| {
        let names = [&b"a plan"[..], b" plan ", b"plan\r", b"a\tplan", b"\xC3\xA9plan", b"-", b"\r", b"..."];
        same(random.pick(&names))
    }),
    ("name in a folder below", |_| same(format!("{BELOW}/plan").as_bytes())),
    ("name behind ./", |random| (USUAL.to_vec(), behind_dots(USUAL.len() + 2 * (1 + random.below(40))))),
    ("name of over 255 octets", |random| (USUAL.to_vec(), behind_dots(256 + 2 * random.below(900)))),
    ("name of 4,095 octets", |_| (ODD.to_vec(), [&b"./".repeat((MOST_NAME - ODD.len()) / 2), ODD].concat())),
    // a file has it, which the program does not open
    ("name that is not UTF-8", |random| same(random.pick(&[&b"\xFF\x80plan"[..], b"plan\xC3", b"\xED\xA0\x80"]))),
];

/// Lines by which no file can be opened, though one is there by the usual name.
pub(crate) const UNOPENED: [(Name, Line); 11] = [
    ("name of no file", |random| {
        random
            .pick(&[&b"missing"[..], b"bench.pla", b"bench.plan.", b"bench.plan/", b"BENCH.PLAN", b"below/bench.plan"])
            .to_vec()
    }),
    ("name of a folder", |random| random.pick(&[BELOW, ".", "..", "/", "./", "below/"]).as_bytes().to_vec()),
    ("empty name", |_| Vec::new()),
    ("name and NUL", |random| [USUAL, random.pick(&[&b"\0"[..], b"\0x", b"\0\0\0"])].concat()),
    ("NUL alone", |_| vec![0]),
    ("name and carriage return", |_| [USUAL, b"\r"].concat()),
    ("name and tab", |random| [USUAL, random.pick(&[&b"\t"[..], b"\tx", b"\tallow\t1"])].concat()),
    ("name and blanks", |random| random.pick(&[&b" bench.plan"[..], b"bench.plan ", b"bench.plan x"]).to_vec()),
    ("name of 4,100 octets", |_| behind_dots(MOST_LINE)),
    ("name of 4,101 octets", |random| {
        let longer = MOST_LINE + 1;
        random.pick(&[&behind_dots(longer)[..], &vec![b'n'; longer]]).to_vec()
    }),
    ("name of far over 4,100 octets", |random| behind_dots(random.pick(&[4_102, 8_192, 65_536, 70_000, 200_000]))),
];

fn same(name: &[u8]) -> (Vec<u8>, Vec<u8>) {
    (name.to_vec(), name.to_vec())
}

/// The usual name, made that long by folders that change nothing.
fn behind_dots(octets: usize) -> Vec<u8> {
    let odd = octets.saturating_sub(USUAL.len()) % 2;
    let dots = b"./".repeat(octets.saturating_sub(USUAL.len()) / 2);
    [&dots, &b"/"[..odd.min(dots.len())], USUAL].concat()
}
