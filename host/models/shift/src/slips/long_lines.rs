//! Lines of more than 4,100 octets, and of just so many.

use super::{slip, Slip};
use crate::lines::{cut, numbered};

const MOST: usize = 4_100;

pub(super) const SLIPS: [Slip; 11] = [
    slip("OneMoreOctetTaken", "A line of 4,101 octets is read.", |rules| rules.lines.most_octets = MOST + 1),
    slip("LongestLineRefused", "A line of 4,100 octets can't be read.", |rules| rules.lines.most_octets = MOST - 1),
    slip("LongLineTaken", "A line of any length is read.", |rules| rules.lines.most_octets = usize::MAX),
    slip("LongLineCut", "The first 4,100 octets of a line are read.", |rules| {
        rules.lines.most_octets = usize::MAX;
        rules.lines.content = |line| &line[..line.len().min(MOST)];
    }),
    slip("LongLineIsTwo", "What stands behind 4,100 octets is a line of its own.", |rules| {
        rules.lines.cut = |input| {
            let halves = |line: &[u8]| if line.len() > MOST { vec![MOST, line.len()] } else { vec![line.len()] };
            cut(input).into_iter().flat_map(|line| parts(line, halves(line))).collect()
        };
    }),
    slip("LongLineIsMany", "A long line is a line every 4,100 octets.", |rules| {
        rules.lines.cut = |input| {
            let ends = |line: &[u8]| (1..).map(|part| part * MOST).take_while(|&end| end < line.len()).collect();
            let with_last = |line: &[u8]| [ends(line), vec![line.len()]].concat();
            cut(input).into_iter().flat_map(|line| parts(line, with_last(line))).collect()
        };
    }),
    slip("LongLineTakesNext", "A long line is skipped together with the line behind it.", |rules| {
        rules.lines.numbered = |lines| {
            let is_taken = |place: usize| place > 0 && lines[place - 1].len() > MOST;
            let left = (0..lines.len()).filter(|&place| !is_taken(place)).map(|place| lines[place]);
            numbered(&left.collect::<Vec<&[u8]>>())
        };
    }),
    slip("LongLineSkipped", "A long line is not counted.", |rules| {
        rules.lines.numbered = |lines| {
            let short: Vec<&[u8]> = lines.iter().copied().filter(|line| line.len() <= MOST).collect();
            numbered(&short)
        };
    }),
    slip("LongLineSilent", "A long line is counted, but nothing is printed for it.", |rules| {
        rules.lines.numbered = |lines| numbered(lines).into_iter().filter(|(_, line)| line.len() <= MOST).collect();
    }),
    slip("LongLineEndsRun", "A long line is the last that is printed.", |rules| {
        rules.run.goes_on = |line, _| line.len() <= MOST;
    }),
    slip("LongerLineTaken", "Only a line of 65,536 octets or more can't be read.", |rules| {
        rules.lines.most_octets = 65_535;
    }),
];

/// The parts of a line that end there.
fn parts(line: &[u8], ends: Vec<usize>) -> Vec<&[u8]> {
    let mut start = 0;
    let part = |end| {
        let part = &line[start..end];
        start = end;
        part
    };
    ends.into_iter().map(part).collect()
}
