//! Copies, flags and the longest reply.

use crate::support::*;
use model::Answer;

#[test]
fn an_ignored_timer_is_not_copied() {
    let mut request = pdu(0x80, 3, Some(60));
    request.truncate(20);
    request.extend([31, 0, 2, 5, 6, 37, 0, 1, 0, 0, 9, 9]);
    let reply = ask(&mut bench(), &request).1;
    assert_eq!((reply[2], reply[5]), (4, 0));
    assert_eq!(reply[12..], [37, 0, 5, 1, 0, 0, 0, 0, 31, 0, 2, 5, 6, 37, 0, 1, 0, 0]);
}

#[test]
fn code_ten_copies_without_status() {
    let mut unit = bench();
    ask(&mut unit, &activate(60));
    let mut request = pdu(0x80, 200, Some(60));
    request.truncate(20);
    request.extend([9, 0, 1, 5, 0]);
    let reply = ask(&mut unit, &request).1;
    assert_eq!((reply[2], reply[4], reply[5]), (4, 200, 10));
    assert_eq!(reply[12..], [9, 0, 1, 5, 0]);
}

#[test]
fn request_flags_and_code_are_not_looked_at() {
    let mut request = activate(60);
    (request[2], request[5]) = (0xFF, 0xFF);
    assert_eq!(ask(&mut bench(), &request).1[..6], [0x80, 56, 1, 8, 1, 0]);
}

#[test]
fn the_longest_reply_has_2008_octets() {
    let mut request = pdu(0x80, 3, None);
    request.truncate(12);
    let value = 2000 - 18 - 12 - 3 - 1;
    request.push(9);
    request.extend((value as u16).to_be_bytes());
    request.extend(vec![7; value]);
    request.push(0);
    let (answer, reply) = ask(&mut bench(), &request);
    assert_eq!(answer, Answer::Reply { length: 2008 });
    assert_eq!(reply[20..], request[12..]);
}
