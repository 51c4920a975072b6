//! A well-formed request's PDU by its parts.

use crate::pdu::Pdu;

impl Pdu {
    pub(crate) fn read(octets: &[u8]) -> Pdu {
        let first = 4 + usize::from(octets[3]);
        let (mut tlvs, mut rest) = (Vec::new(), &octets[first..]);
        while rest[0] != 0 {
            let length = 3 + usize::from(u16::from_be_bytes([rest[1], rest[2]]));
            tlvs.push(rest[..length].to_vec());
            rest = &rest[length..];
        }
        Pdu {
            level: octets[0] >> 5,
            version: octets[0] & 0x1F,
            opcode: octets[1],
            flags: octets[2],
            other_offset: None,
            message_type: octets[4],
            code: octets[5],
            port: octets[6..12].try_into().expect("six octets"),
            between: octets[12..first].to_vec(),
            tlvs,
            tail: rest.to_vec(),
        }
    }

    /// The TLVs that are copied, in their order.
    pub(crate) fn unknown(&self) -> Vec<&[u8]> {
        self.tlvs.iter().map(Vec::as_slice).filter(|tlv| is_unknown(tlv)).collect()
    }

    /// How many TLVs stand ahead of the timer.
    pub(crate) fn ahead_of_timer(&self) -> Option<usize> {
        self.tlvs.iter().position(|tlv| !is_unknown(tlv))
    }
}

/// Of a type other than 37, or of that type with a subtype other than 1.
fn is_unknown(tlv: &[u8]) -> bool {
    tlv[0] != 37 || tlv[3] != 1
}
