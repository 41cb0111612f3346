//! Which time a server may sign, and with which radius; or that it had better be silent.

use crate::clock::{Reading, Source};

const SECOND: u64 = 1_000_000;

/// The least radius that draft 19 (5.2.5) recommends to who knows nothing of leap seconds.
const LEAST_RADIUS: u64 = 3;

/// By so much the time may go otherwise than the clock that only goes forward, without having
/// jumped: a leap second is one, and [`LEAST_RADIUS`] is more than twice that.
const LEAP: u64 = 1_500_000;

/// A clock that is being set right slowly goes wrong by up to a thousandth.
const SLEW: u64 = 1000;

/// After a jump the time before or the time after it was wrong. For so long nothing is signed, so
/// that who keeps the clock can tell which.
pub const HOLD: u64 = 60 * SECOND;

/// What the operator says of the clock.
#[derive(Clone, Debug)]
pub struct Policy {
    pub source: Source,
    /// Whether the time is signed though the kernel says that nobody keeps the clock right.
    pub trust: bool,
    /// The radius in seconds, where it is not made of the kernel's bound.
    pub radius: Option<u32>,
    /// What is added to the kernel's bound, in seconds.
    pub margin: u32,
}

/// A time that may be signed, in seconds.
#[derive(Clone, Copy, Debug, PartialEq, Eq)]
pub struct Told {
    pub midp: u64,
    pub radi: u32,
}

/// Why no time may be signed.
#[derive(Clone, Copy, Debug, PartialEq, Eq)]
pub enum Silence {
    /// The kernel says that nobody keeps the clock right.
    Unsynchronised,
    /// The clock jumped less than [`HOLD`] ago.
    Jumped,
}

/// Looks at the clocks again and again. Each thread has its own.
#[derive(Debug)]
pub struct Timekeeper {
    policy: Policy,
    last: Option<Reading>,
    /// Until this moment nothing is signed.
    held: Option<u64>,
}

impl Timekeeper {
    pub fn new(policy: Policy) -> Timekeeper {
        Timekeeper { policy, last: None, held: None }
    }

    /// The time now. Where it is asked at least every few seconds no jump goes unnoticed.
    pub fn now(&mut self) -> Result<Told, Silence> {
        let reading = self.policy.source.read();
        self.judge(reading)
    }

    /// Microseconds since 1970 and of the other clock, whatever may be signed.
    pub fn reading(&self) -> Reading {
        self.policy.source.read()
    }

    fn judge(&mut self, reading: Reading) -> Result<Told, Silence> {
        if self.last.is_some_and(|last| jumped(&last, &reading)) {
            self.held = Some(reading.moment.saturating_add(HOLD));
        }
        self.last = Some(reading);
        if reading.error.is_none() && !self.policy.trust {
            return Err(Silence::Unsynchronised);
        }
        match self.held {
            Some(until) if reading.moment < until => Err(Silence::Jumped),
            _ => Ok(Told { midp: reading.wall / SECOND, radi: self.radius(&reading) }),
        }
    }

    /// The true time is nearer to MIDP than this (5.2.5), which is the whole second before the
    /// clock's time: that takes the kernel's bound and one second more.
    fn radius(&self, reading: &Reading) -> u32 {
        let bound = reading.error.unwrap_or(0).saturating_add(SECOND - 1) / SECOND;
        let made = bound.saturating_add(1 + u64::from(self.policy.margin)).max(LEAST_RADIUS);
        self.policy.radius.unwrap_or_else(|| u32::try_from(made).unwrap_or(u32::MAX))
    }
}

fn jumped(last: &Reading, next: &Reading) -> bool {
    let passed = next.moment.saturating_sub(last.moment);
    let due = last.wall.saturating_add(passed);
    next.wall.abs_diff(due) > LEAP + passed / SLEW
}

#[cfg(test)]
mod tests {
    use super::*;

    fn keeper(trust: bool, radius: Option<u32>) -> Timekeeper {
        Timekeeper::new(Policy { source: Source::System, trust, radius, margin: 1 })
    }

    fn reading(wall: u64, moment: u64, error: Option<u64>) -> Reading {
        Reading { wall, moment, error }
    }

    #[test]
    fn the_radius_covers_the_kernels_bound() {
        let radi = |error| keeper(true, None).judge(reading(9_999_999, 0, error)).unwrap().radi;
        assert_eq!([None, Some(0), Some(1), Some(1_000_000)].map(radi), [3, 3, 3, 3]);
        assert_eq!([Some(1_000_001), Some(16_000_000)].map(radi), [4, 18]);
        assert_eq!(radi(Some(u64::MAX)), u32::MAX);
        let told = keeper(true, Some(7)).judge(reading(9_999_999, 0, Some(99_000_000)));
        assert_eq!(told, Ok(Told { midp: 9, radi: 7 }));
    }

    #[test]
    fn a_clock_that_nobody_keeps_is_trusted_only_where_that_is_said() {
        assert_eq!(keeper(false, None).judge(reading(1, 0, None)), Err(Silence::Unsynchronised));
        assert!(keeper(false, None).judge(reading(1, 0, Some(5))).is_ok());
        assert!(keeper(true, None).judge(reading(1, 0, None)).is_ok());
    }

    #[test]
    fn a_jump_is_held_against_the_clock_for_a_minute() {
        for jump in [-100 * SECOND as i64, 2 * SECOND as i64] {
            let mut keeper = keeper(true, None);
            let wall = 1000 * SECOND;
            assert!(keeper.judge(reading(wall, 0, None)).is_ok());
            // A leap second is no jump.
            assert!(keeper.judge(reading(wall, SECOND, None)).is_ok());
            let after = (wall as i64 + jump) as u64;
            let jumped = Err(Silence::Jumped);
            assert_eq!(keeper.judge(reading(after, SECOND, None)), jumped);
            let late = |more: u64| reading(after + more, SECOND + more, None);
            assert_eq!(keeper.judge(late(HOLD - 1)), jumped);
            assert!(keeper.judge(late(HOLD)).is_ok());
        }
    }
}
