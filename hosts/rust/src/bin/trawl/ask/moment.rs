//! The machine's own clock, by which requests and answers are timed.
//!
//! It is CLOCK_BOOTTIME: nobody can set it, so that the system's clock may jump, and it goes on
//! while the machine sleeps. The standard library's `Instant` stands still then, and a window that
//! was heard before would be taken for a newer one.

use std::os::raw::{c_int, c_long};
use std::time::Duration;

/// The clocks of Linux that only go forward, the better one first. The other one is for kernels
/// before 2.6.39.
const CLOCK_BOOTTIME: c_int = 7;
const CLOCK_MONOTONIC: c_int = 1;

#[repr(C)]
#[derive(Default)]
struct Timespec {
    seconds: c_long,
    nanoseconds: c_long,
}

extern "C" {
    fn clock_gettime(clock: c_int, time: *mut Timespec) -> c_int;
}

/// A moment of that clock: the time since the machine was started.
#[derive(Clone, Copy, Debug, Default, PartialEq, Eq, PartialOrd, Ord)]
pub struct Moment(Duration);

impl Moment {
    pub fn now() -> Moment {
        let read = |clock| {
            let mut time = Timespec::default();
            // SAFETY: it is lent for the call.
            let told = unsafe { clock_gettime(clock, &mut time) };
            (told == 0).then(|| Duration::new(time.seconds as u64, time.nanoseconds as u32))
        };
        Moment(read(CLOCK_BOOTTIME).or_else(|| read(CLOCK_MONOTONIC)).unwrap_or_default())
    }

    pub fn after(self, wait: Duration) -> Moment {
        Moment(self.0.saturating_add(wait))
    }

    /// How long it is from this moment to a later one; nothing where that is past.
    pub fn until(self, later: Moment) -> Duration {
        later.0.saturating_sub(self.0)
    }

    /// How long it is from now on; nothing where it is past.
    pub fn left(self) -> Duration {
        Moment::now().until(self)
    }

    pub fn is_past(self) -> bool {
        self.left().is_zero()
    }

    /// Microseconds, rounded down: when a request was sent, which is not too late.
    pub fn micros_down(self) -> u64 {
        self.0.as_micros() as u64
    }

    /// Microseconds, rounded up: when an answer was received, which is not too early; and what is
    /// asked about, which is then not before it.
    pub fn micros_up(self) -> u64 {
        ((self.0.as_nanos() + 999) / 1_000) as u64
    }

    /// Whole seconds.
    pub fn seconds(self) -> u64 {
        self.0.as_secs()
    }
}

#[cfg(test)]
mod tests {
    use super::*;

    #[test]
    fn it_goes_forward() {
        let (one, other) = (Moment::now(), Moment::now());
        assert!(one <= other && one > Moment::default());
        assert!(one.is_past() && !one.after(Duration::from_secs(60)).is_past());
        assert_eq!(one.after(Duration::from_secs(60)).until(one), Duration::ZERO);
    }

    /// The system has the time since it was started, with its sleep, in a file, too.
    #[test]
    fn it_counts_from_the_start_of_the_machine() {
        let text = std::fs::read_to_string("/proc/uptime").expect("Linux has it");
        let uptime: f64 = text.split(' ').next().expect("it has one").parse().expect("a number");
        let ours = Moment::now().micros_down() as f64 / 1e6;
        assert!((ours - uptime).abs() < 5.0, "{ours} and {uptime}");
    }

    #[test]
    fn rounding_is_on_the_safe_side() {
        let moment = Moment(Duration::new(3, 1_001));
        assert_eq!(
            (moment.micros_down(), moment.micros_up(), moment.seconds()),
            (3_000_001, 3_000_002, 3)
        );
        let whole = Moment(Duration::new(3, 1_000));
        assert_eq!((whole.micros_down(), whole.micros_up()), (3_000_001, 3_000_001));
    }
}
