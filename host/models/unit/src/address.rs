//! Addresses of ports and testers.

/// Six octets in network order, so that addresses compare as their 48-bit numbers do.
pub type Address = [u8; 6];

pub(crate) fn is_group(address: Address) -> bool {
    address[0] & 1 == 1
}

/// The address that stands at that index of a frame long enough for it.
pub(crate) fn address_at(octets: &[u8], index: usize) -> Address {
    let mut address = [0; 6];
    address.copy_from_slice(&octets[index..index + 6]);
    address
}

/// Two octets in network order as a number.
pub(crate) fn pair_at(octets: &[u8], index: usize) -> u16 {
    u16::from_be_bytes([octets[index], octets[index + 1]])
}
