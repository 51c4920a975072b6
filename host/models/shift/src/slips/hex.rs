//! Hex.

use super::{slip, Slip};
use crate::fields::{digit, hex};

pub(super) const SLIPS: [Slip; 12] = [
    slip("UpperHexTaken", "Hex digits can be in upper case.", |rules| {
        rules.fields.hex = |field| hex(&field.to_ascii_lowercase());
    }),
    slip("OddDigitDropped", "An odd digit is dropped.", |rules| {
        rules.fields.hex = |field| match field {
            [rest @ .., last] if field.len() > 1 && field.len() % 2 == 1 => digit(*last).and_then(|_| hex(rest)),
            _ => hex(field),
        };
    }),
    slip("OddDigitIsOctet", "An odd digit is an octet.", |rules| {
        rules.fields.hex =
            |field| if field.len() % 2 == 1 && field != b"-" { hex(&[field, b"0"].concat()) } else { hex(field) };
    }),
    slip("EmptyHexTaken", "An empty field is an empty frame.", |rules| {
        rules.fields.hex = |field| if field.is_empty() { Some(Vec::new()) } else { hex(field) };
    }),
    slip("DashNotTaken", "`-` can't be read.", |rules| {
        rules.fields.hex = |field| hex(field).filter(|octets| !octets.is_empty());
    }),
    slip("DashesTaken", "Octets can be parted by `-`.", |rules| rules.fields.hex = |field| without(field, b'-')),
    slip("ColonsTaken", "Octets can be parted by `:`.", |rules| rules.fields.hex = |field| without(field, b':')),
    slip("HexBlanksTaken", "Blanks between digits do not count.", |rules| {
        rules.fields.hex = |field| without(field, b' ')
    }),
    slip("HexPrefixTaken", "Hex can stand behind `0x`.", |rules| {
        rules.fields.hex = |field| hex(field.strip_prefix(b"0x").unwrap_or(field));
    }),
    slip("HexEndsAtOther", "Hex is read up to what is no digit.", |rules| {
        rules.fields.hex = |field| {
            let end = field.iter().position(|&octet| digit(octet).is_none()).unwrap_or(field.len());
            hex(field).or_else(|| hex(&field[..end]))
        };
    }),
    slip("LongFrameUnreadable", "A frame of over 2,000 octets can't be read.", |rules| {
        rules.fields.hex = |field| hex(field).filter(|octets| octets.len() <= 2_000);
    }),
    slip("ShortFrameUnreadable", "A frame of under 14 octets, but not of none, can't be read.", |rules| {
        rules.fields.hex = |field| hex(field).filter(|octets| octets.is_empty() || octets.len() >= 14);
    }),
];

/// The field read without that octet, wherever it stands.
fn without(field: &[u8], parting: u8) -> Option<Vec<u8>> {
    let rest: Vec<u8> = field.iter().copied().filter(|&octet| octet != parting).collect();
    hex(field).or_else(|| hex(&rest))
}
