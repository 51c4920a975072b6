//! From a line to its record: whether it is readable.

use crate::plan_read::PlanReader;
use crate::record::Record;
use crate::{Address, Flaw, MpKind, PortKind, SetKind};

impl PlanReader<'_> {
    /// The record of a line that was ended by LF, which is no part of it.
    pub(crate) fn record(&self, line: &[u8]) -> Result<Record, Flaw> {
        let fields: Vec<&[u8]> = line.split(|&octet| octet == b'\t').collect();
        match fields[0] {
            b"port" => self.port_record(&fields[1..]),
            b"flow" => self.flow_record(&fields[1..]),
            b"mp" => self.mp_record(&fields[1..]),
            _ => Err(Flaw::NoRecord),
        }
    }

    fn port_record(&self, fields: &[&[u8]]) -> Result<Record, Flaw> {
        let [number, kind, address] = fields else {
            return Err(Flaw::FieldCount);
        };
        let number = self.number(number)?;
        let kind = match *kind {
            b"uni" => PortKind::Uni,
            b"enni" => PortKind::Enni,
            _ => return Err(Flaw::UnlistedWord),
        };
        Ok(Record::Port { number, kind, address: self.address(address)? })
    }

    fn flow_record(&self, fields: &[&[u8]]) -> Result<Record, Flaw> {
        let [number, port, kind, vid] = fields else {
            return Err(Flaw::FieldCount);
        };
        let (number, port) = (self.number(number)?, self.number(port)?);
        let kind = match *kind {
            b"u" => SetKind::U,
            b"c" => SetKind::C,
            b"s" => SetKind::S,
            _ => return Err(Flaw::UnlistedWord),
        };
        Ok(Record::Flow { number, port, kind, vid: self.number(vid)? })
    }

    fn mp_record(&self, fields: &[&[u8]]) -> Result<Record, Flaw> {
        let [flow, kind, level] = fields else {
            return Err(Flaw::FieldCount);
        };
        let flow = self.number(flow)?;
        let kind = match *kind {
            b"up" => MpKind::Up,
            b"down" => MpKind::Down,
            b"mip" => MpKind::Mip,
            _ => return Err(Flaw::UnlistedWord),
        };
        Ok(Record::Mp { flow, kind, level: self.number(level)? })
    }

    fn number(&self, field: &[u8]) -> Result<u64, Flaw> {
        (self.rules.number)(field).ok_or(Flaw::NoNumber)
    }

    fn address(&self, field: &[u8]) -> Result<Address, Flaw> {
        if field.len() != 12 {
            return Err(Flaw::NoAddress);
        }
        let mut address = [0; 6];
        for (octet, digits) in address.iter_mut().zip(field.chunks(2)) {
            *octet = self.digit(digits[0])? << 4 | self.digit(digits[1])?;
        }
        Ok(address)
    }

    fn digit(&self, digit: u8) -> Result<u8, Flaw> {
        (self.rules.hex)(digit).ok_or(Flaw::NoAddress)
    }
}

/// The number that digits stand for, however many they are, if none of them is a leading zero.
pub(crate) fn decimal(field: &[u8]) -> Option<u64> {
    let leads_with_zero = field.len() > 1 && field[0] == b'0';
    digits(field).filter(|_| !leads_with_zero)
}

/// Numbers too large for the type are its largest.
pub(crate) fn digits(field: &[u8]) -> Option<u64> {
    let is_digits = !field.is_empty() && field.iter().all(u8::is_ascii_digit);
    let add = |number: u64, &digit: &u8| number.saturating_mul(10).saturating_add(u64::from(digit - b'0'));
    is_digits.then(|| field.iter().fold(0, add))
}

pub(crate) fn hex(digit: u8) -> Option<u8> {
    match digit {
        b'0'..=b'9' => Some(digit - b'0'),
        b'a'..=b'f' => Some(digit - b'a' + 10),
        _ => None,
    }
}
