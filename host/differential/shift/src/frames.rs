//! Frames: requests, data of the same machine, and some that miss.

use model::Unit;
use random::Random;

use crate::aim::{self, Aim};
use crate::event::Event;

const MOST_FRAME: usize = 2_000;
const SOAM: [u8; 2] = [0x89, 0x02];
const TIMER_HEAD: [u8; 4] = [37, 0, 5, 1];
/// A TLV of a type that is not known, ahead of its length.
const UNKNOWN: u8 = 9;
const TLV_HEAD: usize = 3;
const ACTIVATE: u8 = 1;
const STATE: u8 = 3;

pub(crate) fn any(unit: &Unit, random: &mut Random) -> Event {
    let mut aim = aim::any(unit, random);
    let frame = match random.below(12) {
        0..=5 => request(&aim, random),
        6..=9 => data(&mut aim, random),
        10 => longest_state(&aim),
        _ => spliced(request(&aim, random), random),
    };
    let (port, side) = misplaced(aim, random);
    Event::Frame { port, side, frame }
}

/// Data of that many octets.
pub(crate) fn of_length(unit: &Unit, octets: usize, random: &mut Random) -> Event {
    let mut aim = aim::any(unit, random);
    let mut frame = data(&mut aim, random);
    frame.resize(octets, random.octet());
    Event::Frame { port: aim.port, side: aim.side, frame }
}

fn request(aim: &Aim, random: &mut Random) -> Vec<u8> {
    let message_type = random.pick(&[ACTIVATE, ACTIVATE, ACTIVATE, ACTIVATE, 2, STATE, STATE, 77]);
    let mut tlvs = Vec::new();
    if message_type == ACTIVATE {
        let seconds: u32 = random.pick(&[1, 2, 60, 60, 86_400, 0]);
        tlvs = [&TIMER_HEAD[..], &seconds.to_be_bytes()].concat();
    }
    if random.one_in(4) {
        tlvs.extend([UNKNOWN, 0, 2, random.octet(), random.octet()]);
    }
    let is_to_all = message_type == STATE && random.one_in(2);
    let destination = if is_to_all { [0x01, 0x80, 0xC2, 0, 0, 0x38 + aim.level] } else { aim.address };
    soam(aim, destination, message_type, &tlvs)
}

fn soam(aim: &Aim, destination: [u8; 6], message_type: u8, tlvs: &[u8]) -> Vec<u8> {
    let head = [aim.level << 5, 57, 0, 8, message_type, 0];
    [&destination[..], &aim.source, &aim.tag, &SOAM, &head, &aim.address, tlvs, &[0]].concat()
}

/// A request as long as can be, whose reply is longer still.
fn longest_state(aim: &Aim) -> Vec<u8> {
    let room = MOST_FRAME - soam(aim, aim.address, STATE, &[]).len() - TLV_HEAD;
    let [high, low] = (room as u16).to_be_bytes();
    let value = vec![0xC5; room];
    soam(aim, aim.address, STATE, &[&[UNKNOWN, high, low][..], &value].concat())
}

/// From either side.
fn data(aim: &mut Aim, random: &mut Random) -> Vec<u8> {
    aim.side ^= u32::from(random.one_in(2));
    let destination = random.pick(&[aim.address, [0x02, 0, 0, 0, 0, 0x77], [0xFF; 6]]);
    let count = random.pick(&[0, 3, 46, 200, MOST_FRAME - 14 - aim.tag.len()]);
    let value: Vec<u8> = (0..count).map(|_| random.octet()).collect();
    [&destination[..], &aim.source, &aim.tag, &[0x08, 0x00], &value].concat()
}

/// An octet more, one less, another one, or all behind it gone.
fn spliced(mut frame: Vec<u8>, random: &mut Random) -> Vec<u8> {
    let place = random.below(frame.len());
    match random.below(4) {
        0 => frame.insert(place, random.octet()),
        1 => drop(frame.remove(place)),
        2 => frame[place] ^= 1 << random.below(8),
        _ => frame.truncate(place),
    }
    frame
}

/// The port and the side; now and then such as there are none of.
fn misplaced(aim: Aim, random: &mut Random) -> (u32, u32) {
    match random.below(24) {
        0 => (random.pick(&[0, 9, 256 + aim.port, u32::MAX]), aim.side),
        1 => (aim.port, random.pick(&[2, 256 + aim.side, u32::MAX])),
        _ => (aim.port, aim.side),
    }
}
