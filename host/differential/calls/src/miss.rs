//! Ways for a frame to miss what it was aimed at: its place, addresses, tags and type.

use image::State;
use random::Random;

use crate::draft::{class_two, Draft};
use crate::miss_pdu::miss_pdu;

pub(crate) fn miss(draft: &mut Draft, state: &State, random: &mut Random) {
    match random.below(16) {
        0 => miss_port(draft, state, random),
        1 => draft.side = random.pick(&[draft.side ^ 1, draft.side ^ 1, 2, 256 | draft.side, u32::MAX]),
        2 => miss_destination(draft, state, random),
        3 => miss_source(draft, state, random),
        4 | 5 => miss_tag(draft, state, random),
        6 => add_tag(draft, random),
        7 => draft.ether_type ^= 1 << random.below(16),
        _ => miss_pdu(&mut draft.pdu, random),
    }
}

/// Another port, with the destination that goes with it or not; or none.
fn miss_port(draft: &mut Draft, state: &State, random: &mut Random) {
    let port = random.pick(&state.ports);
    match random.below(4) {
        0 => draft.port = u32::from(port.number),
        1 | 2 => {
            draft.port = u32::from(port.number);
            draft.destination = port.address.0;
            draft.pdu.port = port.address.0;
        }
        _ => draft.port = random.pick(&[0, 9, 256 | draft.port, 0x1_0000 | draft.port, u32::MAX, 1, 2, 8]),
    }
}

fn miss_destination(draft: &mut Draft, state: &State, random: &mut Random) {
    let port = random.pick(&state.ports).address.0;
    match random.below(6) {
        0 => draft.destination = port,
        1 => (draft.destination, draft.pdu.port) = (port, port),
        2 => draft.destination = class_two(random.below(10) as u8),
        3 => draft.destination = class_two(draft.pdu.level),
        4 => draft.destination = random.pick(&[[0xFF; 6], [0; 6], draft.source, [0x01, 0x80, 0xC2, 0, 0, 0x37]]),
        _ => draft.destination[random.below(6)] ^= 1 << random.below(8),
    }
}

fn miss_source(draft: &mut Draft, state: &State, random: &mut Random) {
    match random.below(5) {
        0 => draft.source = [0; 6],
        1 | 2 => draft.source[0] ^= 1,
        3 => draft.source = random.pick(&state.ports).address.0,
        _ => draft.source[random.below(6)] ^= 1 << random.below(8),
    }
}

/// Another flow's tag, none, one of the other type, or one with a VID of no set.
fn miss_tag(draft: &mut Draft, state: &State, random: &mut Random) {
    match random.below(8) {
        0 => draft.tags.clear(),
        1..=3 if !state.flows.is_empty() => {
            let flow = random.pick(&state.flows);
            draft.tags = flow.tag(0).map_or(Vec::new(), |tag| tag.to_be_bytes().to_vec());
        }
        4 if draft.tags.len() > 1 => {
            let types = [[0x81, 0x00], [0x88, 0xA8], [0x91, 0x00], [0x81, 0xA8], [0x88, 0x00]];
            draft.tags[..2].copy_from_slice(&random.pick(&types));
        }
        5 if draft.tags.len() > 3 => draft.tags[random.below(4)] ^= 1 << random.below(8),
        turn => {
            let tag_type = random.pick(&[0x8100_u16, 0x88A8]).to_be_bytes();
            let vid = [[0x00, 0x00], [0xE0, 0x00], [0x0F, 0xFF], [0xFF, 0xFF], [0x00, 0x63]][turn % 5];
            draft.tags = [tag_type, vid].concat();
        }
    }
}

/// A tag beneath the others, or on top of them.
fn add_tag(draft: &mut Draft, random: &mut Random) {
    let tag_type = random.pick(&[0x8100_u16, 0x88A8]).to_be_bytes();
    let tag = [tag_type, [0x00, random.pick(&[0, 20, 30])]].concat();
    draft.tags = match random.one_in(4) {
        true => [tag, draft.tags.clone()].concat(),
        false => [draft.tags.clone(), tag].concat(),
    };
}
