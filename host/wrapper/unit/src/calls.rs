//! The calls as functions of slices.

use crate::Answer;

extern "C" {
    fn tmavolice_make(image: *mut u8, image_len: usize, plan: *const u8, plan_len: usize, clock: u32) -> u64;
    fn tmavolice_frame(
        image: *mut u8,
        image_len: usize,
        port: u32,
        side: u32,
        frame: *const u8,
        frame_len: usize,
        out: *mut u8,
        out_len: usize,
    ) -> u64;
    fn tmavolice_tick(image: *mut u8, image_len: usize, clock: u32) -> u64;
    fn tmavolice_allow(image: *mut u8, image_len: usize, flow: u32) -> u64;
    fn tmavolice_prohibit(image: *mut u8, image_len: usize, flow: u32) -> u64;
    fn tmavolice_notice(image: *mut u8, image_len: usize, out: *mut u8, out_len: usize) -> u64;
    fn tmavolice_restart(image: *mut u8, image_len: usize, clock: u32) -> u64;
}

/// Makes a state from a plan's text.
pub fn make(image: &mut [u8], plan: &[u8], clock: u32) -> Answer {
    // SAFETY: pointers and lengths are those of two slices, which are not null and, one of them being `&mut`, apart.
    Answer(unsafe { tmavolice_make(image.as_mut_ptr(), image.len(), plan.as_ptr(), plan.len(), clock) })
}

/// Hands in a frame, with the port that it is at and the side that it comes from.
pub fn frame(image: &mut [u8], port: u32, side: u32, frame: &[u8], out: &mut [u8]) -> Answer {
    let (octets, lent) = (image.as_mut_ptr(), image.len());
    // SAFETY: pointers and lengths are those of three slices, which are not null and, two of them being `&mut`, apart.
    Answer(unsafe {
        tmavolice_frame(octets, lent, port, side, frame.as_ptr(), frame.len(), out.as_mut_ptr(), out.len())
    })
}

/// Says what time it is.
pub fn tick(image: &mut [u8], clock: u32) -> Answer {
    // SAFETY: pointer and length are those of one slice, which is not null and lent to nobody else.
    Answer(unsafe { tmavolice_tick(image.as_mut_ptr(), image.len(), clock) })
}

/// Lets testers open sessions on a flow.
pub fn allow(image: &mut [u8], flow: u32) -> Answer {
    // SAFETY: as in `tick`.
    Answer(unsafe { tmavolice_allow(image.as_mut_ptr(), image.len(), flow) })
}

/// Lets them no longer.
pub fn prohibit(image: &mut [u8], flow: u32) -> Answer {
    // SAFETY: as in `tick`.
    Answer(unsafe { tmavolice_prohibit(image.as_mut_ptr(), image.len(), flow) })
}

/// Takes the first notice that is due.
pub fn notice(image: &mut [u8], out: &mut [u8]) -> Answer {
    // SAFETY: pointers and lengths are those of two slices, which are not null and, both being `&mut`, apart.
    Answer(unsafe { tmavolice_notice(image.as_mut_ptr(), image.len(), out.as_mut_ptr(), out.len()) })
}

/// Closes every session and sets the clock.
pub fn restart(image: &mut [u8], clock: u32) -> Answer {
    // SAFETY: as in `tick`.
    Answer(unsafe { tmavolice_restart(image.as_mut_ptr(), image.len(), clock) })
}
