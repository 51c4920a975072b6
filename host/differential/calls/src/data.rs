//! Requests turned into data of the same machine.

use random::Random;

use crate::draft::{class_two, Draft};

/// Frames of other types, and OAM of other opcodes or levels.
pub(crate) fn turn(draft: &mut Draft, random: &mut Random) {
    draft.destination = destination(draft, random);
    match random.below(6) {
        0..=2 => {
            draft.ether_type =
                random.pick(&[0x0800, 0x0800, 0x86DD, 0x05DC, 0x0000, 0x9100, 0x88E7, 0x8903, 0x8100, 0x88A8])
        }
        3 => draft.pdu.opcode = random.pick(&[0, 1, 56, 58, 255]),
        4 => draft.pdu.level = random.below(8) as u8,
        _ => {
            draft.pdu.opcode = random.pick(&[1, 56]);
            draft.pdu.level = random.below(8) as u8;
        }
    }
    if random.one_in(3) {
        draft.side ^= 1;
    }
}

fn destination(draft: &Draft, random: &mut Random) -> [u8; 6] {
    let level = random.below(8) as u8;
    let any = random.octet();
    random.pick(&[
        draft.destination,
        draft.destination,
        [0x02, 0, 0, 0, 0, any],
        [any, 0, 0, 0, 0, 0xBB],
        [0xFF; 6],
        [0x01, 0x00, 0x5E, 0, 0, any],
        class_two(level),
    ])
}
