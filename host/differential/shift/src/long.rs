//! Lines of 4,100 octets, and longer ones.

use random::Random;

use crate::tag::Name;

const MOST: usize = 4_100;
/// What a program may read at a time, and hand over in a pipe.
const PIPE: usize = 65_536;

/// Makes a line, of which that many octets at least stand behind the limit where it is a far longer one.
type Make = fn(usize, &mut Random) -> Vec<u8>;

/// Lines that can be read.
pub(crate) const READ: [(Name, Make); 1] =
    [("line of 4,100 octets", |_, random| frame(random.pick(&["1\t1", "1\t0", "9\t1"]), MOST))];

/// Lines that can't be: the first ones but for their length.
pub(crate) const BAD: [(Name, Make); 6] = [
    ("line of 4,101 octets", |_, random| frame(random.pick(&["10\t1", "1\t10", "99\t0"]), MOST + 1)),
    ("line of 4,102 octets", |_, random| frame(random.pick(&["1\t1", "1\t0"]), MOST + 2)),
    ("unreadable line of 4,100 octets", |_, random| filler(MOST, random)),
    ("unreadable line of 4,101 octets", |_, random| filler(MOST + 1, random)),
    ("far longer frame", |beyond, random| frame(random.pick(&["1\t1", "1\t0", "2\t1"]), (MOST + beyond) & !1)),
    ("far longer line", |beyond, random| {
        let end = random.pick(&["notice", "allow\t1", "tick\t5", "\tnotice", "restart\t0", "x"]).as_bytes();
        [&filler(MOST + beyond, random), end].concat()
    }),
];

/// How far lines go beyond the limit: often so that what stands at their end begins where a reader may begin anew.
pub(crate) fn beyond(random: &mut Random) -> usize {
    let any = random.below(9_000);
    random.pick(&[0, 0, 1, MOST, 2 * MOST, any, PIPE - MOST, PIPE, 70_000, 196_000])
}

/// A line of that length, of such a frame.
fn frame(place: &str, octets: usize) -> Vec<u8> {
    let mut line = format!("frame\t{place}\t").into_bytes();
    line.resize(octets, b'0');
    line
}

fn filler(octets: usize, random: &mut Random) -> Vec<u8> {
    let unit = random.pick(&[&b"x"[..], b"notice\t", b"\t", b"0", b"\0", b"\xFF", b"notice\r", b" "]);
    unit.iter().copied().cycle().take(octets).collect()
}
