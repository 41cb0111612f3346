//! What the kernel says of its clocks.

use std::mem;
use std::os::raw::{c_int, c_long, c_uint};
use std::time::{SystemTime, UNIX_EPOCH};

/// The kernel's record of its clock, of which two fields are asked for. The layout is that of Linux
/// on machines of 64 bits, where it has 208 bytes.
#[repr(C)]
struct Timex {
    modes: c_uint,
    offset: c_long,
    frequency: c_long,
    most_error: c_long,
    estimated_error: c_long,
    status: c_int,
    rest: [c_long; 20],
}

const _: () = assert!(mem::size_of::<Timex>() == 208);

#[repr(C)]
#[derive(Default)]
struct Timespec {
    seconds: c_long,
    nanoseconds: c_long,
}

extern "C" {
    fn adjtimex(timex: *mut Timex) -> c_int;
    fn clock_gettime(clock: c_int, time: *mut Timespec) -> c_int;
}

/// The clock that only goes forward, and goes on while the machine sleeps.
const CLOCK_BOOTTIME: c_int = 7;

const STA_UNSYNC: c_int = 0x40;

/// How far the clock may be off, in microseconds, by the kernel's own bound; nothing where it says
/// that nobody keeps the clock right. With no mode set the call changes nothing, and any user may
/// make it.
pub fn error() -> Option<u64> {
    // SAFETY: all zeros are such a record.
    let mut timex: Timex = unsafe { mem::zeroed() };
    // SAFETY: it is lent for the call, and as large as the system's.
    let told = unsafe { adjtimex(&mut timex) };
    let kept = told != -1 && timex.status & STA_UNSYNC == 0;
    if kept {
        u64::try_from(timex.most_error).ok()
    } else {
        None
    }
}

/// Microseconds of the clock that only goes forward.
pub fn moment() -> u64 {
    let mut time = Timespec::default();
    // SAFETY: it is lent for the call.
    unsafe { clock_gettime(CLOCK_BOOTTIME, &mut time) };
    time.seconds.unsigned_abs() * 1_000_000 + time.nanoseconds.unsigned_abs() / 1000
}

/// Microseconds since 1970, and 0 where the clock is before that.
pub fn wall() -> u64 {
    let since = SystemTime::now().duration_since(UNIX_EPOCH).unwrap_or_default();
    u64::try_from(since.as_micros()).unwrap_or(u64::MAX)
}
