//! Whether anything can be written to standard output.
//!
//! Before `main`, Rust opens /dev/null in the place of a standard output that is closed, as by
//! `>&-`, so that what is printed would be lost without a word. So it is looked at before that: the
//! system calls what stands in `.init_array` before anything of Rust's.

use std::io::{self, ErrorKind, Write};
use std::os::raw::c_int;
use std::sync::atomic::{AtomicBool, Ordering};

static CLOSED: AtomicBool = AtomicBool::new(false);

extern "C" {
    fn fcntl(descriptor: c_int, command: c_int, ...) -> c_int;
}

const F_GETFD: c_int = 1;

extern "C" fn look() {
    // SAFETY: it asks for the flags of a descriptor, and changes nothing.
    CLOSED.store(unsafe { fcntl(1, F_GETFD) } == -1, Ordering::SeqCst);
}

#[used]
#[cfg_attr(target_os = "linux", link_section = ".init_array")]
static LOOK: extern "C" fn() = look;

/// Writes all of it to standard output, and says where that could not be done.
pub fn print(bytes: &[u8]) -> io::Result<()> {
    if CLOSED.load(Ordering::SeqCst) {
        return Err(io::Error::new(ErrorKind::Other, "it is closed"));
    }
    let mut out = io::stdout().lock();
    out.write_all(bytes).and_then(|()| out.flush())
}
