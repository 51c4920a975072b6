//! The bench, and frames to try on it.

use model::{Answer, Unit};

pub const BENCH: &[u8] = b"port\t1\tuni\t020000000001\nflow\t1\t1\tc\t20\nflow\t2\t1\tc\t30\nmp\t1\tup\t4\n";
pub const PORT: [u8; 6] = [2, 0, 0, 0, 0, 1];
pub const TESTER: [u8; 6] = [2, 0, 0, 0, 0, 0xAA];
pub const EXTERNAL: u32 = 0;
pub const CEN: u32 = 1;
pub const ROOM: usize = 2008;

/// The bench's plan and a line more, its flow 1 allowed at clock 0.
pub fn bench_with(more: &[u8]) -> Unit {
    let mut unit = Unit::make(&[BENCH, more].concat(), 0).expect("a good plan");
    assert_eq!(unit.allow(1), Answer::Done);
    unit
}

pub fn bench() -> Unit {
    bench_with(b"")
}

pub fn soam(destination: [u8; 6], source: [u8; 6], tag: [u8; 4], pdu: &[u8]) -> Vec<u8> {
    [&destination, &source, &tag[..], &[0x89, 0x02], pdu].concat()
}

/// A request with an own timer, if any.
pub fn pdu(first: u8, message_type: u8, seconds: Option<u32>) -> Vec<u8> {
    let mut pdu = vec![first, 57, 0, 8, message_type, 0];
    pdu.extend(PORT);
    if let Some(seconds) = seconds {
        pdu.extend([37, 0, 5, 1]);
        pdu.extend(seconds.to_be_bytes());
    }
    pdu.push(0);
    pdu
}

/// The request of B1 with other seconds.
pub fn activate(seconds: u32) -> Vec<u8> {
    pdu(0x80, 1, Some(seconds))
}

pub const VID_20: [u8; 4] = [0x81, 0, 0, 20];
pub const VID_30: [u8; 4] = [0x81, 0, 0, 30];

/// Hands the tester's request in from the CEN; the answer and the reply's PDU.
pub fn ask(unit: &mut Unit, pdu: &[u8]) -> (Answer, Vec<u8>) {
    ask_from(unit, CEN, TESTER, pdu)
}

pub fn ask_from(unit: &mut Unit, side: u32, source: [u8; 6], pdu: &[u8]) -> (Answer, Vec<u8>) {
    let (answer, octets) = unit.frame(1, side, &soam(PORT, source, VID_20, pdu), ROOM);
    if octets.is_empty() {
        return (answer, octets);
    }
    assert_eq!(octets[..18], soam(source, PORT, VID_20, &[]));
    (answer, octets[18..].to_vec())
}

/// The code of the reply to the tester's request from the CEN.
pub fn code(unit: &mut Unit, pdu: &[u8]) -> u8 {
    let (answer, reply) = ask(unit, pdu);
    assert_eq!(answer, Answer::Reply { length: 18 + reply.len() });
    reply[5]
}

/// A data frame of the tester.
pub fn data(destination: [u8; 6], tag: [u8; 4]) -> Vec<u8> {
    [&destination, &TESTER, &tag[..], &[8, 0, 1, 2, 3]].concat()
}
