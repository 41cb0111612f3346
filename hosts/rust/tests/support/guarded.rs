//! Bytes that end or begin where the memory does: on both sides of a room stands a page that nobody
//! may touch, so that what is read or written past the edge stops the test. Where there is more
//! room beside them, bytes stand there that tell whether they were written over.

use std::ffi::{c_int, c_long, c_void};
use std::ops::Range;
use std::{ptr, slice};

extern "C" {
    fn mmap(
        address: *mut c_void,
        length: usize,
        protection: c_int,
        flags: c_int,
        file: c_int,
        offset: c_long,
    ) -> *mut c_void;
    fn mprotect(address: *mut c_void, length: usize, protection: c_int) -> c_int;
    fn munmap(address: *mut c_void, length: usize) -> c_int;
    fn sysconf(name: c_int) -> c_long;
}

/// The numbers that Linux has for these.
const PROT_NONE: c_int = 0;
const PROT_READ_WRITE: c_int = 1 | 2;
const MAP_PRIVATE_ANONYMOUS: c_int = 0x02 | 0x20;
const SC_PAGESIZE: c_int = 30;
const SC_THREAD_STACK_MIN: c_int = 75;

/// A number that the system has.
fn system(name: c_int) -> usize {
    // SAFETY: this asks for a number.
    usize::try_from(unsafe { sysconf(name) }).expect("the system has such a number")
}

/// The least stack that the C library lets a thread have.
pub fn least_stack() -> usize {
    system(SC_THREAD_STACK_MIN)
}

/// Beside the bytes.
const BESIDE: u8 = 0xc5;
/// How many of those are looked at, on each side.
const WATCHED: usize = 256;

/// Where in a room bytes are laid.
#[derive(Clone, Copy, Debug, PartialEq, Eq)]
pub enum Spot {
    /// They end at the fence behind the room.
    Back,
    /// They begin at the fence in front of it.
    Front,
    /// They begin so many bytes behind that fence, and end before the other.
    Amid(usize),
}

/// Memory for up to `room` bytes at a time.
pub struct Guarded {
    /// Where the fence in front of the room begins.
    fence: *mut u8,
    room: usize,
    page: usize,
    laid: Range<usize>,
}

impl Guarded {
    pub fn new(room: usize) -> Self {
        let page = system(SC_PAGESIZE);
        let room = (room + 2 * WATCHED + page - 1) / page * page;
        let length = room + 2 * page;
        // SAFETY: new memory is asked for, wherever there is any.
        let fence =
            unsafe { mmap(ptr::null_mut(), length, PROT_READ_WRITE, MAP_PRIVATE_ANONYMOUS, -1, 0) };
        assert_ne!(fence as usize, usize::MAX, "there is no memory");
        let mut guarded = Guarded { fence: fence.cast(), room, page, laid: 0..0 };
        guarded.all().fill(BESIDE);
        for at in [0, page + room] {
            // SAFETY: the page is a part of that memory, and nobody has a reference to it.
            assert_eq!(unsafe { mprotect(guarded.fence.add(at).cast(), page, PROT_NONE) }, 0);
        }
        guarded
    }

    fn all(&mut self) -> &mut [u8] {
        // SAFETY: it is readable, writable and initialised, and only this value leads to it.
        unsafe { slice::from_raw_parts_mut(self.fence.add(self.page), self.room) }
    }

    /// Lays a copy of these bytes into the room, and tells where it is. [`Guarded::left`] comes
    /// after that and before the next.
    pub fn lay(&mut self, bytes: &[u8], spot: Spot) -> *mut u8 {
        let at = match spot {
            Spot::Back => self.room - bytes.len(),
            Spot::Front => 0,
            Spot::Amid(at) => at,
        };
        self.laid = at..at + bytes.len();
        let lent = &mut self.all()[at..at + bytes.len()];
        lent.copy_from_slice(bytes);
        lent.as_mut_ptr()
    }

    /// What was left of the bytes that were laid, shown to `look`. What is beside them must be as
    /// it was.
    pub fn left<T>(&mut self, look: impl FnOnce(&[u8]) -> T) -> T {
        let Range { start, end } = self.laid.clone();
        let all = self.all();
        let watched = (end + WATCHED).min(all.len());
        let beside = [&all[start.saturating_sub(WATCHED)..start], &all[end..watched]];
        assert!(
            beside.iter().all(|side| side.iter().all(|byte| *byte == BESIDE)),
            "something was written beside {} bytes",
            end - start
        );
        let seen = look(&all[start..end]);
        all[start..end].fill(BESIDE);
        seen
    }

    /// A copy of these bytes that ends at the fence, for `call`. What is in front of them must be
    /// as it was afterwards; what `call` left of them is told beside its answer.
    pub fn lend<T>(&mut self, bytes: &[u8], call: impl FnOnce(&mut [u8]) -> T) -> (T, Vec<u8>) {
        let at = self.lay(bytes, Spot::Back);
        // SAFETY: these are the bytes that were just laid, and nothing else leads to them now.
        let answer = call(unsafe { slice::from_raw_parts_mut(at, bytes.len()) });
        (answer, self.left(<[u8]>::to_vec))
    }

    /// The same of bytes that may only be read.
    pub fn show<T>(&mut self, bytes: &[u8], call: impl FnOnce(&[u8]) -> T) -> T {
        let (answer, after) = self.lend(bytes, |lent| call(lent));
        assert!(after == bytes, "an input of {} bytes was written to", bytes.len());
        answer
    }
}

impl Drop for Guarded {
    fn drop(&mut self) {
        // SAFETY: this is the memory that was asked for, and nobody has a reference to it.
        unsafe { munmap(self.fence.cast(), self.room + 2 * self.page) };
    }
}
