//! How many octets wait in a pipe.

use std::ffi::{c_int, c_ulong};
use std::io;
use std::os::fd::AsRawFd;

/// Asks Linux for the number of octets that can be read.
const FIONREAD: c_ulong = 0x541B;

extern "C" {
    fn ioctl(file: c_int, request: c_ulong, ...) -> c_int;
}

/// The octets that were written to the pipe and are not read yet.
#[allow(unsafe_code)]
pub(crate) fn waiting(pipe: &impl AsRawFd) -> io::Result<usize> {
    let mut count: c_int = 0;
    // SAFETY: the descriptor is open as long as the pipe is borrowed, and the request writes one int to where it is told.
    let told = unsafe { ioctl(pipe.as_raw_fd(), FIONREAD, &mut count as *mut c_int) };
    match told {
        0 => Ok(count as usize),
        _ => Err(io::Error::last_os_error()),
    }
}
