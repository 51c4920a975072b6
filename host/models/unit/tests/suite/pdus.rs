//! Random PDUs and their TLVs, good and bad.

use crate::frames::address;
use random::Random;

fn tlv(rng: &mut Random, rest: usize) -> Vec<u8> {
    let seconds = rng.pick(&[0, 1, 1, 2, 60, 60, 60, 60, 86_399, 86_400, 86_401, u32::MAX]);
    let timer = [&[37, 0, 5, 1], &seconds.to_be_bytes()[..]].concat();
    match rng.below(24) {
        0 => vec![37, 0, 0],
        1 => [&[37, 0, 6, 1], &seconds.to_be_bytes()[..], &[0]].concat(),
        2 => vec![37, 0, 4, 1, 0, 0, 1],
        3 | 4 => vec![37, 0, 1, 7],
        5 | 6 => vec![31, 0, 4, 0, 1, 2, rng.octet()],
        7 | 8 => vec![9, 0, 1, rng.octet()],
        9 => vec![9, 0, 200, 1],
        10 => vec![9, 0],
        11 if rest > 4 => {
            let value = vec![5; rest - 4];
            [&[9], &(value.len() as u16).to_be_bytes()[..], &value].concat()
        }
        _ => timer,
    }
}

/// A PDU for that destination and level, behind so many octets of its frame.
pub fn random(rng: &mut Random, to: [u8; 6], level: u8, before: usize) -> Vec<u8> {
    let version = rng.pick(&[0, 0, 0, 0, 1, 31]);
    let extra = if version == 0 { 0 } else { rng.pick(&[0, 0, 2]) };
    let offset = if rng.one_in(16) { rng.pick(&[0, 4, 7, 9, 200]) } else { 8 + extra as u8 };
    let message_type = rng.pick(&[0, 1, 1, 1, 1, 1, 2, 2, 3, 3, 3, 3, 4, 255]);
    let message_type = if to[0] & 1 == 1 && !rng.one_in(4) { 3 } else { message_type };
    let opcode = rng.pick(&[57, 57, 57, 57, 57, 57, 57, 57, 57, 56, 1]);
    let mut pdu = vec![level << 5 | version, opcode, rng.octet(), offset, message_type, 0];
    pdu.extend(if rng.one_in(16) { address(rng.octet() % 4) } else { to });
    pdu.extend(vec![9; extra]);
    for _ in 0..rng.pick(&[0, 1, 1, 1, 1, 2, 2, 3]) {
        let tlv = tlv(rng, (2000 - before).saturating_sub(pdu.len()));
        pdu.extend(tlv);
    }
    pdu.extend(rng.pick(&[&[0][..], &[0], &[0], &[0], &[0], &[], &[0, 0], &[0, 9, 0], &[0, 37]]));
    if rng.one_in(12) {
        pdu.truncate(rng.pick(&[0, 1, 2, 4, 11, 11, 11, 12]));
    }
    pdu
}
