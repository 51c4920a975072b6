//! Texts of plans, most of them faulty.

use random::Random;

use crate::{lines, plans};

const MOST_OCTETS: usize = 8192;

pub(crate) fn any(random: &mut Random) -> Vec<u8> {
    let plan = plans::good(random);
    let mut lines = plans::lines(&plan, random);
    for _ in 0..random.below(3) {
        spoil_lines(&mut lines, random);
    }
    let mut text = lines.concat();
    spoil_text(&mut text, random);
    text
}

fn spoil_lines(lines: &mut Vec<Vec<u8>>, random: &mut Random) {
    if lines.is_empty() {
        return lines.push(lines::any(random));
    }
    let (place, other) = (random.below(lines.len()), random.below(lines.len()));
    match random.below(17) {
        0 | 1 => lines.insert(place, lines::any(random)),
        2..=4 => lines.push(lines::any(random)),
        5 => lines.insert(place, random.pick(&[&b"\n"[..], b"\t\n", b"\r\n", b"port\n"]).to_vec()),
        6 | 7 => repeat(lines, place, random),
        8 => (0..34).for_each(|_| lines.push(lines::another_mp(random))),
        9 => drop(lines.remove(place)),
        10 => lines.swap(place, other),
        11 => splice(&mut lines[place], random),
        12 => lines[place] = [lines[place].trim_ascii_end(), b"\r\n"].concat(),
        _ => lines[place] = lines::altered(&lines[place], random),
    }
}

/// The line again, further on, and often altered.
fn repeat(lines: &mut Vec<Vec<u8>>, place: usize, random: &mut Random) {
    let line = match random.one_in(3) {
        true => lines[place].clone(),
        false => lines::altered(&lines[place], random),
    };
    let later = place + 1 + random.below(lines.len() - place);
    lines.insert(later, line);
}

/// An octet more, one less or another one, somewhere in the line.
fn splice(line: &mut Vec<u8>, random: &mut Random) {
    let place = random.below(line.len());
    match random.below(4) {
        0 => line.insert(place, random.octet()),
        1 => line.insert(place, line[place]),
        2 => drop(line.remove(place)),
        _ => line[place] ^= 1 << random.below(8),
    }
}

fn spoil_text(text: &mut Vec<u8>, random: &mut Random) {
    let filler = random.pick(b"\n\t0x\xFF");
    match random.below(40) {
        0 | 1 => drop(text.pop()),
        2 => text.clear(),
        3 => *text = (0..random.below(64)).map(|_| random.octet()).collect(),
        4 => text.truncate(random.below(text.len() + 1)),
        5 | 6 => text.resize(MOST_OCTETS, filler),
        7 => text.resize(MOST_OCTETS + 1, filler),
        8 => text.resize(random.pick(&[MOST_OCTETS - 1, 2 * MOST_OCTETS, 65_536 + 24]), filler),
        9 => *text = vec![filler; MOST_OCTETS + random.below(2)],
        10 => long_number(text, random),
        _ => {}
    }
}

/// The last field is a number of thousands of digits, so that the text is as long as can be, or one octet longer.
fn long_number(text: &mut Vec<u8>, random: &mut Random) {
    text.extend(random.pick(&[&b"mp\t1\tup\t"[..], b"flow\t1\t1\tc\t", b"port\t"]));
    let length = MOST_OCTETS - 1 + random.below(2);
    text.resize(length, random.pick(b"019"));
    text.push(b'\n');
}
