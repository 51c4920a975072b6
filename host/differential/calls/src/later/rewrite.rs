//! Requests rewritten as a later version of the protocol would send them.

use random::Random;

use crate::lengths::{fill_room, MOST_FRAME};
use crate::pdu::Pdu;
use crate::tlvs;

const RESERVED_FLAGS: u8 = 0xF8;
/// An offset of 255.
const MOST_BETWEEN: usize = 247;

pub(crate) struct Rewriting {
    /// What stands ahead of the PDU: addresses, tag and type.
    pub(crate) head: Vec<u8>,
    pub(crate) old: Pdu,
    pub(crate) new: Pdu,
}

impl Rewriting {
    /// Of a frame whose PDU starts there; each its own way.
    pub(crate) fn of(frame: &[u8], start: usize, random: &mut Random) -> Rewriting {
        let (head, pdu) = frame.split_at(start);
        let old = Pdu::read(pdu);
        assert_eq!(old.octets(), pdu, "the parts are the PDU's");
        let mut rewriting = Rewriting { head: head.to_vec(), new: old.clone(), old };
        rewriting.new.version = 1 + random.below(31) as u8;
        let changed = random.pick(&[0, RESERVED_FLAGS]) & random.octet();
        rewriting.new.flags ^= changed;
        rewriting.add_octets(random);
        rewriting.add_tlvs(random);
        rewriting
    }

    pub(crate) fn frame(&self) -> Vec<u8> {
        [&self.head[..], &self.new.octets()].concat()
    }

    fn room(&self) -> usize {
        MOST_FRAME - self.frame().len()
    }

    /// Straight ahead of the first TLV.
    fn add_octets(&mut self, random: &mut Random) {
        let most = self.room().min(MOST_BETWEEN - self.new.between.len());
        let count = random.pick(&[0, 0, 1, 2, 8, 40, most]).min(most);
        self.new.between.extend((0..count).map(|_| random.octet()));
    }

    /// Ahead of any TLVs, End included.
    fn add_tlvs(&mut self, random: &mut Random) {
        for _ in 0..random.pick(&[0, 1, 1, 2, 3, 8]) {
            let tlv = self.another(random);
            if tlv.len() <= self.room() {
                self.new.add(tlv, random);
            }
        }
        if random.one_in(12) {
            let room = self.room();
            fill_room(&mut self.new, room, random);
        }
    }

    /// An unknown TLV of any type, or one that is there already.
    fn another(&self, random: &mut Random) -> Vec<u8> {
        let there = self.new.unknown();
        if !there.is_empty() && random.one_in(4) {
            return random.pick(&there).to_vec();
        }
        let mut tlv = tlvs::unknown(random);
        let kind = random.octet();
        if tlv[0] != 37 && !matches!(kind, 0 | 37) && random.one_in(2) {
            tlv[0] = kind;
        }
        tlv
    }
}
