//! The fields of a line: words, numbers and hex.

#[derive(Clone, Debug)]
pub(crate) struct FieldRules {
    /// SHIFT-8: the fields, with one tab between them.
    pub(crate) parted: fn(&[u8]) -> Vec<Vec<u8>>,
    pub(crate) number: fn(&[u8]) -> Option<u32>,
    pub(crate) hex: fn(&[u8]) -> Option<Vec<u8>>,
}

impl Default for FieldRules {
    fn default() -> FieldRules {
        FieldRules { parted, number, hex }
    }
}

pub(crate) fn parted(line: &[u8]) -> Vec<Vec<u8>> {
    line.split(|&octet| octet == b'\t').map(<[u8]>::to_vec).collect()
}

/// SHIFT-14: decimal, with no zero in front, and not too high.
pub(crate) fn number(field: &[u8]) -> Option<u32> {
    let leads_with_zero = field.len() > 1 && field[0] == b'0';
    digits(field).filter(|_| !leads_with_zero)?.try_into().ok()
}

/// What digits stand for; what is too large for the type is its largest.
pub(crate) fn digits(field: &[u8]) -> Option<u64> {
    let is_digits = !field.is_empty() && field.iter().all(u8::is_ascii_digit);
    let add = |number: u64, &digit: &u8| number.saturating_mul(10).saturating_add(u64::from(digit - b'0'));
    is_digits.then(|| field.iter().fold(0, add))
}

/// SHIFT-15: an even number of lower-case digits, not none, or `-` for no octet.
pub(crate) fn hex(field: &[u8]) -> Option<Vec<u8>> {
    if field == b"-" {
        return Some(Vec::new());
    }
    if field.is_empty() || field.len() % 2 == 1 {
        return None;
    }
    field.chunks(2).map(|pair| Some(digit(pair[0])? << 4 | digit(pair[1])?)).collect()
}

pub(crate) fn digit(octet: u8) -> Option<u8> {
    match octet {
        b'0'..=b'9' => Some(octet - b'0'),
        b'a'..=b'f' => Some(octet - b'a' + 10),
        _ => None,
    }
}
