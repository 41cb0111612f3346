//! Times, as people and as programs read them.

use std::time::Duration;
use trawlbeacon::picture::Date;

/// Microseconds of a second and of a millisecond.
const SECOND: u64 = 1_000_000;
const MILLI: u64 = 1_000;

/// A date to the millisecond, of microseconds since 1970.
pub fn fine(micros: u64) -> String {
    format!("{}.{:03}", Date::of(micros / SECOND), micros % SECOND / MILLI)
}

/// The same, and not before it.
pub fn fine_up(micros: u64) -> String {
    fine(micros.saturating_add(MILLI - 1))
}

/// The date of a second.
pub fn whole(seconds: u64) -> String {
    Date::of(seconds).to_string()
}

/// A date in one word to the microsecond, by RFC 3339, which has none past the year 9999.
pub fn exact(micros: u64) -> Option<String> {
    let date = Date::of(micros / SECOND);
    let fraction = micros % SECOND;
    (date.year <= 9999).then(|| format!("{}T{}.{fraction:06}Z", date.day(), date.time()))
}

/// Seconds to the millisecond, rounded up, of microseconds.
pub fn seconds_up(micros: u64) -> String {
    let millis = micros / MILLI + u64::from(micros % MILLI != 0);
    format!("{}.{:03} s", millis / MILLI, millis % MILLI)
}

/// The same of a time that something took.
pub fn took(time: Duration) -> String {
    seconds_up(u64::try_from(time.as_micros()).unwrap_or(u64::MAX))
}

#[cfg(test)]
mod tests {
    use super::*;

    #[test]
    fn no_end_is_told_too_near() {
        assert_eq!(fine(1_773_685_568_999_999), "2026-03-16 18:26:08.999");
        assert_eq!(fine_up(1_773_685_568_999_001), "2026-03-16 18:26:09.000");
        assert_eq!(fine_up(1_773_685_568_999_000), "2026-03-16 18:26:08.999");
        assert_eq!([seconds_up(3_000_001), seconds_up(3_000_000)], ["3.001 s", "3.000 s"]);
        assert_eq!(seconds_up(u64::MAX), "18446744073709.552 s");
        assert!(fine_up(u64::MAX).starts_with("586524-01-19 08:01:49."));
    }

    #[test]
    fn a_date_in_one_word() {
        assert_eq!(exact(1_773_685_568_000_001).as_deref(), Some("2026-03-16T18:26:08.000001Z"));
        assert_eq!(exact(u64::MAX), None);
    }
}
