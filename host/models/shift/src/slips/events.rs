//! The words, and how fields are parted.

use super::{slip, Slip};
use crate::fields::parted;

/// The words with how many fields their lines have.
const COUNTS: [(&[u8], usize); 6] =
    [(b"frame", 4), (b"tick", 2), (b"allow", 2), (b"prohibit", 2), (b"notice", 1), (b"restart", 2)];

pub(super) const SLIPS: [Slip; 13] = [
    slip("TrailingTabTaken", "A tab at the end of a line is no part of it.", |rules| {
        rules.fields.parted = |line| parted(line.strip_suffix(b"\t").unwrap_or(line));
    }),
    slip("LeadingTabTaken", "A tab at the start of a line is no part of it.", |rules| {
        rules.fields.parted = |line| parted(line.strip_prefix(b"\t").unwrap_or(line));
    }),
    slip("TabsMerged", "Several tabs part as one.", |rules| {
        rules.fields.parted = |line| parted(line).into_iter().filter(|field| !field.is_empty()).collect();
    }),
    slip("BlanksPart", "A blank parts as a tab does.", |rules| {
        rules.fields.parted =
            |line| parted(&line.iter().map(|&octet| if octet == b' ' { b'\t' } else { octet }).collect::<Vec<u8>>());
    }),
    slip("FieldsTooManyTaken", "Fields too many are not looked at.", |rules| {
        rules.fields.parted = |line| {
            let mut fields = parted(line);
            fields.truncate(count_for(&fields[0]).unwrap_or(usize::MAX));
            fields
        };
    }),
    slip("NoticeFieldsIgnored", "What stands behind `notice` is not looked at.", |rules| {
        rules.fields.parted = |line| if line.starts_with(b"notice\t") { parted(b"notice") } else { parted(line) };
    }),
    slip("MissingNumberIsZero", "A number that is left out is 0.", |rules| {
        rules.fields.parted = |line| {
            let mut fields = parted(line);
            if count_for(&fields[0]) == Some(2) && fields.len() == 1 {
                fields.push(b"0".to_vec());
            }
            fields
        };
    }),
    slip("MissingHexIsEmpty", "A frame that is left out is empty.", |rules| {
        rules.fields.parted = |line| {
            let mut fields = parted(line);
            if fields[0] == b"frame" && fields.len() == 3 {
                fields.push(b"-".to_vec());
            }
            fields
        };
    }),
    slip("WordCaseIgnored", "A word can be in upper case.", |rules| {
        rules.fields.parted = |line| with_word(line, |word| word.to_ascii_lowercase());
    }),
    slip("WordBegins", "A word need only begin as one that is listed.", |rules| {
        rules.fields.parted = |line| {
            with_word(line, |word| {
                let found = COUNTS.iter().find(|(listed, _)| word.starts_with(listed));
                found.map_or(word.to_vec(), |(listed, _)| listed.to_vec())
            })
        };
    }),
    slip("WordAbbreviated", "A word can be cut short.", |rules| {
        rules.fields.parted = |line| {
            with_word(line, |word| {
                let found = COUNTS.iter().find(|(listed, _)| !word.is_empty() && listed.starts_with(word));
                found.map_or(word.to_vec(), |(listed, _)| listed.to_vec())
            })
        };
    }),
    slip("HighBitDropped", "The highest bit of an octet does not count.", |rules| {
        rules.fields.parted = |line| parted(&line.iter().map(|octet| octet & 0x7F).collect::<Vec<u8>>());
    }),
    slip("SideBeforePort", "A frame's side stands before its port.", |rules| {
        rules.fields.parted = |line| {
            let mut fields = parted(line);
            if fields[0] == b"frame" && fields.len() > 2 {
                fields.swap(1, 2);
            }
            fields
        };
    }),
];

fn count_for(word: &[u8]) -> Option<usize> {
    COUNTS.iter().find(|(listed, _)| *listed == word).map(|&(_, count)| count)
}

/// The line's fields, the first of them another.
fn with_word(line: &[u8], word: impl Fn(&[u8]) -> Vec<u8>) -> Vec<Vec<u8>> {
    let mut fields = parted(line);
    fields[0] = word(&fields[0]);
    fields
}
