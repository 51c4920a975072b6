//! Ways for a PDU to be no good request for the MP that it was aimed at.

use random::Random;

use crate::pdu::Pdu;
use crate::tlvs;

pub(crate) fn miss_pdu(pdu: &mut Pdu, random: &mut Random) {
    match random.below(16) {
        0 => pdu.level = random.below(8) as u8,
        1 => pdu.version = random.pick(&[0, 1, 31]),
        2 => pdu.opcode = random.pick(&[0, 1, 56, 58]),
        3 => pdu.flags = random.octet(),
        4 | 5 => miss_tlvs(pdu, random),
        6 => pdu.between = vec![random.pick(&[0, 9]); random.below(4)],
        7 => pdu.message_type = random.pick(&[0, 1, 2, 3, 4, 255]),
        8 => pdu.message_type = random.octet(),
        9 => pdu.port[random.below(6)] ^= 1 << random.below(8),
        10 | 11 => pdu.add(tlvs::bad(random), random),
        12 => miss_tlv(pdu, random),
        13 => pdu.tlvs.clear(),
        14 => pdu.tail.clear(),
        _ => {
            let known = tlvs::unknown(random);
            pdu.add(known.clone(), random);
            pdu.add(known, random);
        }
    }
}

/// An offset that leads elsewhere, in a first or a later version.
fn miss_tlvs(pdu: &mut Pdu, random: &mut Random) {
    pdu.other_offset = Some(random.pick(&[0, 3, 4, 5, 6, 7, 8, 9, 10, 200, 255]));
    pdu.version = random.pick(&[pdu.version, 0, 1, 31]);
}

/// A bit of a TLV.
fn miss_tlv(pdu: &mut Pdu, random: &mut Random) {
    if let Some(tlv) = random.pick_mut(&mut pdu.tlvs) {
        let place = random.below(tlv.len());
        tlv[place] ^= 1 << random.below(8);
    }
}
