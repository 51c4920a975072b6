//! What is malformed, and which TLVs are unknown.

use super::{slip, Slip};
use crate::tlv::{bad_tlv, first_tlv, is_timer, split_first, First, Malformed, END, LATCHING};

const ORGANIZATION: u8 = 31;

pub(super) const SLIPS: [Slip; 19] = [
    slip("PortNotCompared", "The Loopback Port MAC is not looked at.", |rules| {
        rules.reading.has_port_compared = |_| false;
    }),
    slip("MulticastPortCompared", "The Loopback Port MAC of a multicast request is compared too.", |rules| {
        rules.reading.has_port_compared = |_| true;
    }),
    slip("OffsetIgnored", "The first TLV stands at octet 13.", |rules| rules.reading.first_at = |_| 12),
    slip("FirstVersionAnyOffset", "Version 0 can have any offset.", |rules| {
        rules.reading.is_good_offset = |version, offset| version == 0 || offset >= 8;
    }),
    slip("LowOffsetTaken", "Other versions can have any offset.", |rules| {
        rules.reading.is_good_offset = |version, offset| version != 0 || offset == 8;
    }),
    slip("LaterVersionMalformed", "Other versions are malformed.", |rules| {
        rules.reading.is_good_offset = |version, offset| version == 0 && offset == 8;
    }),
    slip("NoEndTaken", "A list needs no End.", |rules| {
        rules.reading.first_tlv = |list| if list.is_empty() { Ok(First::End(list)) } else { first_tlv(list) };
    }),
    slip("OctetsAfterEndRead", "Octets after End are TLVs.", |rules| rules.reading.first_tlv = past_end),
    slip("LengthLowFirst", "A length has the lowest octet first.", |rules| {
        rules.reading.first_tlv = |list| split_first(list, u16::from_le_bytes);
    }),
    slip("LongValueTaken", "A value past the PDU ends with it.", |rules| {
        rules.reading.first_tlv = |list| match first_tlv(list) {
            Err(Malformed::ValuePastPdu) => Ok(First::Tlv(list, &[END])),
            first => first,
        };
    }),
    slip("EmptyLatchingTaken", "Type 37 with length 0 is unknown.", |rules| {
        rules.reading.bad_tlv = |tlv, before| bad_tlv(tlv, before).filter(|&kind| kind != Malformed::EmptyLatching);
    }),
    slip("LongTimerTaken", "A timer can have a longer value.", |rules| {
        rules.reading.bad_tlv = |tlv, before| bad_tlv(&tlv[..tlv.len().min(8)], before);
    }),
    slip("SecondTimerTaken", "The last of two timers counts.", |rules| {
        rules.reading.bad_tlv = |tlv, _| bad_tlv(tlv, &[]);
    }),
    slip("SameSubtypeMalformed", "A second TLV of type 37 with one subtype is bad, whatever the subtype.", |rules| {
        rules.reading.bad_tlv = |tlv, before| bad_tlv(tlv, before).or_else(|| same_subtype(tlv, before));
    }),
    slip("OtherTimerMalformed", "A timer in another request than Activate is malformed.", |rules| {
        rules.reading.lacks_timer = |message_type, has_timer| (message_type == 1) != has_timer;
    }),
    slip("NoTimerUnsupported", "An Activate without a timer gets code 6.", |rules| {
        rules.reading.lacks_timer = |_, _| false;
    }),
    slip("TimerCopied", "The timer is copied too.", |rules| rules.reading.is_unknown = |_, _| true),
    slip("IgnoredTimerCopied", "A timer that is ignored is copied.", |rules| {
        rules.reading.is_unknown = |message_type, tlv| message_type != 1 || !is_timer(tlv);
    }),
    slip("OrganizationNotCopied", "Type 31 is not unknown.", |rules| {
        rules.reading.is_unknown = |_, tlv| !is_timer(tlv) && tlv[0] != ORGANIZATION;
    }),
];

fn past_end(list: &[u8]) -> Result<First<'_>, Malformed> {
    match first_tlv(list)? {
        First::End(behind) if !behind.is_empty() => past_end(behind),
        first => Ok(first),
    }
}

fn same_subtype(tlv: &[u8], before: &[&[u8]]) -> Option<Malformed> {
    let is_same = |other: &&[u8]| other[0] == LATCHING && other.get(3) == tlv.get(3);
    (tlv[0] == LATCHING && before.iter().any(is_same)).then_some(Malformed::SecondTimer)
}
