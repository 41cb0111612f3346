//! The timestamps of the 2021 draft, section 5.1.5: of the eight bytes of a number the three most
//! significant are a Modified Julian Date, and the five least significant count the microseconds
//! since midnight on that day. RADI counts microseconds there.
//!
//! Everything is worked out in whole numbers of 128 bits, which go below zero and have room to
//! spare.

use crate::refusal::Refusal;

/// 1 January 1970.
const DAY_ZERO: i128 = 40_587;

const SECOND: i128 = 1_000_000;

const DAY: i128 = 86_400 * SECOND;

/// The first and the last whole second of a stamp's window, since 1970.
#[derive(Clone, Copy, Debug, PartialEq, Eq)]
pub struct Ends {
    /// Rounded down, and never below 0.
    pub low: i128,
    /// Rounded up.
    pub high: i128,
}

/// The window of a timestamp and its radius, both as an old packet has them.
pub fn ends(stamp: u64, radius: u32) -> Result<Ends, Refusal> {
    let bytes = stamp.to_be_bytes();
    let (date, since_midnight) = (number(&bytes[..3]), number(&bytes[3..]));
    // A day with a leap second is one second longer.
    if date < DAY_ZERO || since_midnight >= DAY + SECOND {
        return Err(Refusal::OldStamp);
    }
    // All of a leap second is the midnight behind it.
    let since_midnight = if since_midnight > DAY { DAY } else { since_midnight };
    let stamped = (date - DAY_ZERO) * DAY + since_midnight;
    let radius = i128::from(radius);
    Ok(Ends { low: down(stamped - radius).max(0), high: up(stamped + radius) })
}

/// The number in bytes of which the first counts most.
fn number(bytes: &[u8]) -> i128 {
    bytes.iter().fold(0, |number, byte| number * 256 + i128::from(*byte))
}

/// The last whole second that is not after so many microseconds.
fn down(micros: i128) -> i128 {
    micros.div_euclid(SECOND)
}

/// The first whole second that is not before so many microseconds: the other way round.
fn up(micros: i128) -> i128 {
    -down(-micros)
}

#[cfg(test)]
mod tests {
    use super::*;

    #[test]
    fn the_ends_are_the_nearest_whole_seconds() {
        for micros in (-3 * SECOND - 3..=3 * SECOND + 3).filter(|n| n.rem_euclid(SECOND) < 4) {
            assert!(down(micros) * SECOND <= micros && micros < (down(micros) + 1) * SECOND);
            assert!(up(micros) * SECOND >= micros && micros > (up(micros) - 1) * SECOND);
        }
    }

    /// 20 May 2021 is day 59354, and began 1,621,468,800 seconds after 1970.
    #[test]
    fn a_day_of_2021() {
        let stamp = 59_354 << 40 | 123_456_789;
        assert_eq!(ends(stamp, 0), Ok(Ends { low: 1_621_468_923, high: 1_621_468_924 }));
        assert_eq!(ends(40_586 << 40, 0), Err(Refusal::OldStamp));
    }
}
