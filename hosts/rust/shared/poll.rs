//! Waiting until something can be read or written.

use std::os::raw::{c_int, c_ulong};
use std::os::unix::io::RawFd;

/// Something can be read, or the other side has gone.
pub const READ: i16 = 1;
/// Something can be written.
pub const WRITE: i16 = 4;

/// A descriptor, what is waited for, and what came. The system tells of errors without being asked.
#[repr(C)]
#[derive(Clone, Copy, Debug)]
pub struct Waited {
    descriptor: RawFd,
    events: i16,
    came: i16,
}

impl Waited {
    pub fn new(descriptor: RawFd, events: i16) -> Waited {
        Waited { descriptor, events, came: 0 }
    }

    /// Whether anything came, an error too: a read or a write then says what it is.
    pub fn came(&self) -> bool {
        self.came != 0
    }
}

extern "C" {
    fn poll(waited: *mut Waited, count: c_ulong, milliseconds: c_int) -> c_int;
}

/// Waits until something came, or so many milliseconds are over.
pub fn wait(waited: &mut [Waited], milliseconds: u16) {
    for one in waited.iter_mut() {
        one.came = 0;
    }
    // SAFETY: the slice is lent for the call, with its length. Where the call fails, as by a signal,
    // it writes nothing, and nothing came.
    unsafe { poll(waited.as_mut_ptr(), waited.len() as c_ulong, c_int::from(milliseconds)) };
}
