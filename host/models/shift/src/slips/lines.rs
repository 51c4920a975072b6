//! The input's lines and their numbers.

use super::{slip, Slip};
use crate::lines::{cut, numbered};

pub(super) const SLIPS: [Slip; 13] = [
    slip("LastLineLost", "A last line without LF is no line.", |rules| {
        rules.lines.cut = |input| {
            let ended = input.iter().rposition(|&octet| octet == b'\n').map_or(0, |place| place + 1);
            cut(&input[..ended])
        };
    }),
    slip("NothingIsLine", "Nothing behind the last LF is an empty line.", |rules| {
        rules.lines.cut = |input| input.split(|&octet| octet == b'\n').collect();
    }),
    slip("CarriageReturnTrimmed", "A line can be ended by CR and LF.", |rules| {
        rules.lines.content = |line| line.strip_suffix(b"\r").unwrap_or(line);
    }),
    slip("CarriageReturnEndsLine", "CR ends a line as LF does.", |rules| {
        rules.lines.cut = |input| {
            let lines = cut(input).into_iter();
            lines.flat_map(|line| line.split(|&octet| octet == b'\r')).collect()
        };
    }),
    slip("BlanksTrimmed", "Blanks around a line are no part of it.", |rules| {
        rules.lines.content = |line| {
            let start = line.iter().position(|&octet| octet != b' ').unwrap_or(line.len());
            let end = line.iter().rposition(|&octet| octet != b' ').map_or(start, |last| last + 1);
            &line[start..end]
        };
    }),
    slip("NulEndsLine", "A line is read up to its first NUL.", |rules| {
        rules.lines.content = |line| {
            let end = line.iter().position(|&octet| octet == 0).unwrap_or(line.len());
            &line[..end]
        };
    }),
    slip("EmptyLineSkipped", "An empty line is not counted.", |rules| {
        rules.lines.numbered = |lines| {
            let filled: Vec<&[u8]> = lines.iter().copied().filter(|line| !line.is_empty()).collect();
            numbered(&filled)
        };
    }),
    slip("EmptyLineSilent", "An empty line is counted, but nothing is printed for it.", |rules| {
        rules.lines.numbered = |lines| numbered(lines).into_iter().filter(|(_, line)| !line.is_empty()).collect();
    }),
    slip("EmptyLineNotNumbered", "An empty line is printed with the number of the next line.", |rules| {
        rules.lines.numbered = |lines| {
            let before = |place: usize| lines[..place].iter().filter(|line| !line.is_empty()).count();
            lines.iter().enumerate().map(|(place, &line)| (before(place) + 1, line)).collect()
        };
    }),
    slip("EmptyLineEndsRun", "An empty line ends the run.", |rules| {
        rules.lines.numbered = |lines| numbered(lines).into_iter().take_while(|(_, line)| !line.is_empty()).collect();
    }),
    slip("LinesFromZero", "The first line behind the plan's has number 0.", |rules| {
        rules.lines.numbered = |lines| (0..).zip(lines.iter().copied()).collect();
    }),
    slip("PlanLineNumbered", "The plan's line has number 1.", |rules| {
        rules.lines.numbered = |lines| (2..).zip(lines.iter().copied()).collect();
    }),
    slip("NumbersWrap", "Lines are numbered modulo 32.", |rules| {
        rules.lines.numbered = |lines| numbered(lines).into_iter().map(|(number, line)| (number % 32, line)).collect();
    }),
];
