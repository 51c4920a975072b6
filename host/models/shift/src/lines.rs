//! The input's lines, and which numbers they have.

/// A line behind the first, without its LF, and its number.
pub(crate) type Numbered<'a> = (usize, &'a [u8]);

#[derive(Clone, Debug)]
pub(crate) struct LineRules {
    pub(crate) cut: fn(&[u8]) -> Vec<&[u8]>,
    /// SHIFT-16: how many octets a line has at most, its LF not counted.
    pub(crate) most_octets: usize,
    /// SHIFT-7: the events, numbered.
    pub(crate) numbered: for<'a> fn(&[&'a [u8]]) -> Vec<Numbered<'a>>,
    /// What of a line is read: all of it.
    pub(crate) content: fn(&[u8]) -> &[u8],
}

impl Default for LineRules {
    fn default() -> LineRules {
        LineRules { cut, most_octets: 4_100, numbered, content: |line| line }
    }
}

/// A last line need not be ended by LF; nothing behind the last LF is no line.
pub(crate) fn cut(input: &[u8]) -> Vec<&[u8]> {
    let ended = input.split_inclusive(|&octet| octet == b'\n');
    ended.map(|line| line.strip_suffix(b"\n").unwrap_or(line)).collect()
}

/// The lines that follow the plan's name.
pub(crate) fn numbered<'a>(lines: &[&'a [u8]]) -> Vec<Numbered<'a>> {
    (1..).zip(lines.iter().copied()).collect()
}
