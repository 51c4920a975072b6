//! Numbers.

use super::{slip, Slip};
use crate::fields::{digits, number};

pub(super) const SLIPS: [Slip; 12] = [
    slip("NumberWrapped", "A number counts modulo 2^32.", |rules| {
        rules.fields.number = |field| {
            number(field).or_else(|| large(field)?.iter().try_fold(0, |sum: u32, &octet| Some(next(sum, octet))))
        };
    }),
    slip("NumberCapped", "A number over 4,294,967,295 counts as that.", |rules| {
        rules.fields.number = |field| number(field).or_else(|| large(field).map(|_| u32::MAX));
    }),
    slip("LargestNumberRefused", "4,294,967,295 can't be read.", |rules| {
        rules.fields.number = |field| number(field).filter(|&number| number < u32::MAX);
    }),
    slip("SignedNumbers", "A number over 2,147,483,647 can't be read.", |rules| {
        rules.fields.number = |field| number(field).filter(|&number| number <= 0x7FFF_FFFF);
    }),
    slip("NineDigits", "A number of ten digits can't be read.", |rules| {
        rules.fields.number = |field| number(field).filter(|_| field.len() <= 9);
    }),
    slip("LeadingZeroTaken", "A number can have leading zeros.", |rules| {
        rules.fields.number = |field| digits(field)?.try_into().ok();
    }),
    slip("ZeroRefused", "0 has a leading zero.", |rules| {
        rules.fields.number = |field| number(field).filter(|&number| number > 0);
    }),
    slip("PlusTaken", "A number can have a plus sign.", |rules| {
        rules.fields.number = |field| number(field.strip_prefix(b"+").unwrap_or(field));
    }),
    slip("BlanksTaken", "Blanks around a number are no part of it.", |rules| {
        rules.fields.number = |field| number(field.trim_ascii());
    }),
    slip("EmptyNumberIsZero", "An empty number is 0.", |rules| {
        rules.fields.number = |field| if field.is_empty() { Some(0) } else { number(field) };
    }),
    slip("NumberEndsAtOther", "A number is read up to what is no digit.", |rules| {
        rules.fields.number = |field| {
            let end = field.iter().position(|octet| !octet.is_ascii_digit()).unwrap_or(field.len());
            number(&field[..end])
        };
    }),
    slip("HexNumberTaken", "A number can be in hex, behind `0x`.", |rules| {
        rules.fields.number = |field| match field.strip_prefix(b"0x") {
            Some(rest) => u32::from_str_radix(std::str::from_utf8(rest).ok()?, 16).ok(),
            None => number(field),
        };
    }),
];

/// The digits of a number that is only too large.
fn large(field: &[u8]) -> Option<&[u8]> {
    (digits(field)? > u64::from(u32::MAX) && !field.starts_with(b"0")).then_some(field)
}

fn next(sum: u32, digit: u8) -> u32 {
    sum.wrapping_mul(10).wrapping_add(u32::from(digit - b'0'))
}
