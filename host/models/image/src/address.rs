//! Addresses of ports and testers.

/// Six octets in network order, so that addresses compare as their 48-bit numbers do.
#[derive(Clone, Copy, Debug, PartialEq, Eq, PartialOrd, Ord)]
pub struct Address(pub [u8; 6]);

impl Address {
    /// The address made of the number's lowest 48 bits.
    pub fn of(number: u64) -> Address {
        let [_, _, octets @ ..] = number.to_be_bytes();
        Address(octets)
    }

    pub fn number(self) -> u64 {
        self.0.iter().fold(0, |number, &octet| number << 8 | u64::from(octet))
    }

    /// Whether the lowest bit of the first octet is set. Nothing else makes an address other than unicast.
    pub fn is_group(self) -> bool {
        self.0[0] & 1 == 1
    }
}
