//! Lengths of frames.

use random::Random;

use crate::draft::Draft;
use crate::pdu::Pdu;
use crate::tlvs;

pub(crate) const MOST_FRAME: usize = 2000;
/// A TLV's octets ahead of its value.
const TLV_HEAD: usize = 3;

/// The draft's frame, with another length than it would have where it is told so.
pub(crate) fn written(mut draft: Draft, random: &mut Random) -> Vec<u8> {
    if random.one_in(24) {
        fill(&mut draft, random);
    }
    let mut frame = draft.octets();
    let head = frame.len() - draft.pdu.octets().len();
    if matches!(draft.ether_type, 0x8100 | 0x88A8) && random.one_in(2) {
        frame.truncate(14 + random.below(4));
    }
    match random.below(48) {
        0 => frame.truncate(random.pick(&[0, 12, 13, 14, 15, 16, 17, 18])),
        1 => frame.truncate(head + random.pick(&[0, 1, 2, 4, 5, 11, 11, 11, 12, 13])),
        2 => frame.truncate(random.below(frame.len() + 1)),
        3 => frame.resize(random.pick(&[60, 1999, 2000, 2001, 2001, 2018, 65_550]), random.pick(&[0, 255])),
        4 => {
            let place = random.below(frame.len());
            frame[place] ^= 1 << random.below(8);
        }
        5 => frame.iter_mut().skip(head).for_each(|octet| *octet = random.octet()),
        _ => {}
    }
    frame
}

/// Adds unknown TLVs so that the frame is as long as can be, or an octet longer or shorter.
fn fill(draft: &mut Draft, random: &mut Random) {
    let length = MOST_FRAME + random.pick(&[0, 0, 0, 0, 1]) - random.pick(&[0, 0, 0, 1]);
    let room = length.saturating_sub(draft.octets().len());
    fill_room(&mut draft.pdu, room, random);
}

/// Adds unknown TLVs of so many octets, if that is enough for one.
pub(crate) fn fill_room(pdu: &mut Pdu, mut room: usize, random: &mut Random) {
    let largest = random.pick(&[1, 8, 300, MOST_FRAME]);
    while room >= TLV_HEAD {
        let most = room - TLV_HEAD;
        let count = match most < largest + TLV_HEAD {
            true => most,
            false => random.below(largest),
        };
        let value: Vec<u8> = (0..count).map(|_| random.octet()).collect();
        pdu.tlvs.push(tlvs::of(random.pick(&[9, 31]), &value));
        room = most - count;
    }
}
