//! The signals that a server is told things by.
//!
//! They are held back from every thread, and one asks for them: so nothing is interrupted anywhere,
//! and no code runs that a signal handler may not.

use std::os::raw::{c_int, c_long, c_void};
use std::ptr;
use std::time::Duration;

const SIGHUP: c_int = 1;
const SIGINT: c_int = 2;
const SIGTERM: c_int = 15;
const SIG_BLOCK: c_int = 0;

/// A set of signals: 1,024 bits, in glibc and in musl.
#[repr(C, align(8))]
struct Set([u8; 128]);

#[repr(C)]
struct Timespec {
    seconds: c_long,
    nanoseconds: c_long,
}

extern "C" {
    fn sigemptyset(set: *mut Set) -> c_int;
    fn sigaddset(set: *mut Set, signal: c_int) -> c_int;
    fn pthread_sigmask(how: c_int, set: *const Set, old: *mut Set) -> c_int;
    fn sigtimedwait(set: *const Set, info: *mut c_void, timeout: *const Timespec) -> c_int;
}

#[derive(Clone, Copy, Debug, PartialEq, Eq)]
pub enum Signal {
    /// SIGTERM, or SIGINT from a terminal.
    End,
    /// SIGHUP.
    Reload,
}

pub struct Signals(Set);

impl Signals {
    /// Holds the signals back, from this thread and from all that it starts later.
    pub fn hold() -> Signals {
        let mut set = Set([0; 128]);
        // SAFETY: the set is ours, and as large as the system's.
        unsafe {
            sigemptyset(&mut set);
            for signal in [SIGHUP, SIGINT, SIGTERM] {
                sigaddset(&mut set, signal);
            }
            pthread_sigmask(SIG_BLOCK, &set, ptr::null_mut());
        }
        Signals(set)
    }

    /// The next signal, or nothing where none came in so long.
    pub fn wait(&self, up_to: Duration) -> Option<Signal> {
        let timeout = Timespec {
            seconds: c_long::try_from(up_to.as_secs()).unwrap_or(c_long::MAX),
            nanoseconds: c_long::from(up_to.subsec_nanos() as i32),
        };
        // SAFETY: both are lent for the call, which writes to neither.
        match unsafe { sigtimedwait(&self.0, ptr::null_mut(), &timeout) } {
            SIGHUP => Some(Signal::Reload),
            SIGINT | SIGTERM => Some(Signal::End),
            _ => None,
        }
    }
}
