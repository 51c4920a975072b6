//! PDUs, before they are written.

use random::Random;

use crate::tlvs;

#[derive(Clone)]
pub(crate) struct Pdu {
    pub(crate) level: u8,
    pub(crate) version: u8,
    pub(crate) opcode: u8,
    pub(crate) flags: u8,
    /// Where it is not the one that leads to the TLVs.
    pub(crate) other_offset: Option<u8>,
    pub(crate) message_type: u8,
    pub(crate) code: u8,
    pub(crate) port: [u8; 6],
    /// The octets ahead of the first TLV.
    pub(crate) between: Vec<u8>,
    pub(crate) tlvs: Vec<Vec<u8>>,
    /// End, and what stands behind it.
    pub(crate) tail: Vec<u8>,
}

impl Pdu {
    /// A request that an MP of that level and port serves.
    pub(crate) fn request(level: u8, port: [u8; 6], message_type: u8, seconds: u32, random: &mut Random) -> Pdu {
        let mut tlvs = Vec::new();
        if message_type == 1 || random.one_in(6) {
            tlvs.push(tlvs::timer(seconds));
        }
        let mut pdu = Pdu {
            level,
            version: 0,
            opcode: 57,
            flags: 0,
            other_offset: None,
            message_type,
            code: 0,
            port,
            between: Vec::new(),
            tlvs,
            tail: vec![0],
        };
        pdu.vary(random);
        pdu
    }

    /// Changes that leave the request well-formed.
    fn vary(&mut self, random: &mut Random) {
        match random.below(12) {
            0 => self.flags = random.octet(),
            1 => self.code = random.octet(),
            2 | 3 => self.make_later(random),
            4..=6 => self.add(tlvs::unknown(random), random),
            7 => self.tail.extend(random.pick(&[&[0, 0][..], &[37, 0], &[9, 0, 1, 2], &[37, 0, 5, 1, 0, 0, 0, 1]])),
            _ => return,
        }
        if random.one_in(3) {
            self.vary(random);
        }
    }

    /// A later version, perhaps with more fields ahead of its TLVs.
    fn make_later(&mut self, random: &mut Random) {
        self.version = random.pick(&[1, 2, 31]);
        let count = random.pick(&[0, 1, 2, 2, 40, 247]);
        self.between = (0..count).map(|_| random.octet()).collect();
    }

    pub(crate) fn add(&mut self, tlv: Vec<u8>, random: &mut Random) {
        let place = random.below(self.tlvs.len() + 1);
        self.tlvs.insert(place, tlv);
    }

    pub(crate) fn octets(&self) -> Vec<u8> {
        let usual_offset = (8 + self.between.len()) as u8;
        let offset = self.other_offset.unwrap_or(usual_offset);
        let first = self.level << 5 | self.version;
        let head = [first, self.opcode, self.flags, offset, self.message_type, self.code];
        [&head[..], &self.port, &self.between, &self.tlvs.concat(), &self.tail].concat()
    }
}
