//! The time that is measured.

use std::time::Duration;

/// The processor's time that this thread has had so far. On a machine that others use too a clock
/// goes on while they run, and this does not.
#[cfg(all(target_os = "linux", target_pointer_width = "64"))]
pub fn now() -> Duration {
    use core::ffi::{c_int, c_long};

    /// The C library's, where a long has 64 bits.
    #[repr(C)]
    struct Timespec {
        seconds: c_long,
        nanoseconds: c_long,
    }

    const CLOCK_THREAD_CPUTIME_ID: c_int = 3;

    extern "C" {
        fn clock_gettime(clock: c_int, time: *mut Timespec) -> c_int;
    }

    let mut time = Timespec { seconds: 0, nanoseconds: 0 };
    // SAFETY: it only writes the two numbers.
    let failed = unsafe { clock_gettime(CLOCK_THREAD_CPUTIME_ID, &mut time) };
    assert_eq!(failed, 0, "there is such a clock");
    Duration::new(time.seconds as u64, time.nanoseconds as u32)
}

/// Elsewhere a clock has to do.
#[cfg(not(all(target_os = "linux", target_pointer_width = "64")))]
pub fn now() -> Duration {
    use std::time::{SystemTime, UNIX_EPOCH};
    SystemTime::now().duration_since(UNIX_EPOCH).expect("it is after 1970")
}
