//! The library's look at an image.

extern "C" {
    fn probe_look(image: *const u8, image_len: usize, port: u8, kind: u8, vid: u16, level: u8, source: u64) -> u64;
}

/// 0 where the octets are no valid state's image. Else bit 0 is 1; bits 8 to 15 are the flow's number, 0 if the set
/// has none; 16 to 23 its MP at the level; bit 24 says whether the flow's session of this source is open; bits 32 to
/// 63 are its ms left.
pub fn look(image: &[u8], port: u8, kind: u8, vid: u16, level: u8, source: u64) -> u64 {
    // SAFETY: pointer and length are those of one slice, which the library only reads.
    unsafe { probe_look(image.as_ptr(), image.len(), port, kind, vid, level, source) }
}
