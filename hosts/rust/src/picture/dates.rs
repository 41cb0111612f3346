//! Dates, in UTC, of seconds since 1970.

use std::fmt;

const MINUTE: u64 = 60;
const HOUR: u64 = 60 * MINUTE;
pub(super) const DAY: u64 = 24 * HOUR;

/// Days of 400 years, after which the calendar is the same again.
const DAYS_OF_400_YEARS: u64 = 146_097;

/// Days from the first of March of the year 0 to the first of January 1970. A year that is counted
/// from March on has its leap day at its end.
const DAYS_BEFORE_1970: u64 = 719_468;

/// A second of the Gregorian calendar, in UTC. Roughtime counts no leap seconds, and so has every
/// day 86,400 seconds here.
///
/// ```
/// use trawlbeacon::picture::Date;
///
/// assert_eq!(Date::of(1_773_685_568).to_string(), "2026-03-16 18:26:08");
/// assert_eq!(Date::of(u64::MAX).to_string(), "584554051223-11-09 07:00:15");
/// ```
#[derive(Clone, Copy, Debug, PartialEq, Eq, PartialOrd, Ord)]
pub struct Date {
    /// The year, from 1970 on.
    pub year: u64,
    /// The month, from 1 to 12.
    pub month: u64,
    /// The day, from 1 to 31.
    pub day: u64,
    /// The hour, from 0 to 23.
    pub hour: u64,
    /// The minute, from 0 to 59.
    pub minute: u64,
    /// The second, from 0 to 59.
    pub second: u64,
}

impl Date {
    /// The date of a number of seconds since 1970.
    #[must_use]
    pub const fn of(seconds: u64) -> Date {
        let days = seconds / DAY + DAYS_BEFORE_1970;
        let in_cycle = days % DAYS_OF_400_YEARS;
        // Of the 400 years the last day of every fourth is a leap day, but not of every hundredth
        // one, and again of the last.
        let years = (in_cycle - in_cycle / 1_460 + in_cycle / 36_524 - in_cycle / 146_096) / 365;
        let in_year = in_cycle - (365 * years + years / 4 - years / 100);
        // From March on, five months have 153 days, whichever they are.
        let months = (5 * in_year + 2) / 153;
        let month = if months < 10 { months + 3 } else { months - 9 };
        Date {
            year: 400 * (days / DAYS_OF_400_YEARS) + years + (month <= 2) as u64,
            month,
            day: in_year - (153 * months + 2) / 5 + 1,
            hour: seconds % DAY / HOUR,
            minute: seconds % HOUR / MINUTE,
            second: seconds % MINUTE,
        }
    }

    /// Its day alone, as 2026-03-16.
    #[must_use]
    pub fn day(&self) -> String {
        format!("{:04}-{:02}-{:02}", self.year, self.month, self.day)
    }

    /// Its time of day alone, as 18:26:08.
    #[must_use]
    pub fn time(&self) -> String {
        format!("{:02}:{:02}:{:02}", self.hour, self.minute, self.second)
    }
}

impl fmt::Display for Date {
    fn fmt(&self, f: &mut fmt::Formatter) -> fmt::Result {
        write!(f, "{} {}", self.day(), self.time())
    }
}

/// The second at which a year starts, from 1970 on, where there is such a number.
pub(super) fn year_start(year: u64) -> Option<u64> {
    // The leap days of all years before one.
    let leaps = |year: u64| (year - 1) / 4 - (year - 1) / 100 + (year - 1) / 400;
    let days = year.checked_sub(1970)?.checked_mul(365)?.checked_add(leaps(year) - leaps(1970))?;
    days.checked_mul(DAY)
}

/// How long a number of seconds is, in the largest unit of which there is a whole one.
pub(super) fn span(seconds: u64) -> String {
    let units = [(365 * DAY + 6 * HOUR, "year"), (DAY, "day"), (HOUR, "hour"), (MINUTE, "minute")];
    let (unit, name) =
        units.into_iter().find(|(unit, _)| seconds >= *unit).unwrap_or((1, "second"));
    let about = if seconds % unit == 0 { "" } else { "about " };
    let count = rounded(seconds, unit);
    format!("{about}{count} {name}{}", if count == 1 { "" } else { "s" })
}

/// The same in a few letters.
pub(super) fn brief(seconds: u64) -> String {
    let year = 365 * DAY + 6 * HOUR;
    let units = [
        (1_000_000_000 * year, "Gy"),
        (1_000_000 * year, "My"),
        (1_000 * year, "ky"),
        (year, "y"),
        (DAY, "d"),
        (HOUR, "h"),
        (MINUTE, "min"),
    ];
    let (unit, name) = units.into_iter().find(|(unit, _)| seconds >= *unit).unwrap_or((1, "s"));
    format!("{} {name}", rounded(seconds, unit))
}

/// How many units a number of seconds is, to the nearest whole one.
fn rounded(seconds: u64, unit: u64) -> u64 {
    seconds / unit + u64::from(seconds % unit >= unit - unit / 2)
}

#[cfg(test)]
mod tests {
    use super::{brief, span, year_start, Date, DAY};

    /// Days of a month, by the rule that everybody knows.
    fn days_of(year: u64, month: u64) -> u64 {
        let leap = year % 4 == 0 && (year % 100 != 0 || year % 400 == 0);
        match month {
            2 if leap => 29,
            2 => 28,
            4 | 6 | 9 | 11 => 30,
            _ => 31,
        }
    }

    #[test]
    fn each_day_of_a_thousand_years_follows_the_one_before() {
        let (mut year, mut month, mut day) = (1970, 1, 1);
        for number in 0..366_000 {
            let date = Date::of(number * DAY + DAY - 1);
            assert_eq!((date.year, date.month, date.day), (year, month, day), "day {number}");
            assert_eq!(date.time(), "23:59:59");
            day += 1;
            if day > days_of(year, month) {
                (month, day) = (month + 1, 1);
            }
            if month > 12 {
                (year, month) = (year + 1, 1);
            }
        }
    }

    #[test]
    fn the_ends_are_dates() {
        assert_eq!(Date::of(0).to_string(), "1970-01-01 00:00:00");
        assert_eq!(Date::of(951_782_400).to_string(), "2000-02-29 00:00:00");
        assert_eq!(Date::of(u64::MAX).to_string(), "584554051223-11-09 07:00:15");
    }

    #[test]
    fn a_year_starts_where_its_date_says() {
        for year in (1970..3_000).chain([584_554_051_223]) {
            let start = Date::of(year_start(year).expect("it is a number"));
            assert_eq!(start.to_string(), format!("{year}-01-01 00:00:00"));
        }
        assert_eq!([year_start(1969), year_start(584_554_051_224)], [None, None]);
    }

    #[test]
    fn spans_are_told_in_one_unit() {
        assert_eq!([span(1), span(84)], ["1 second", "about 1 minute"]);
        assert_eq!([span(120), span(86_391)], ["2 minutes", "about 24 hours"]);
        assert_eq!([span(DAY), span(400 * DAY)], ["1 day", "about 1 year"]);
        assert_eq!(span(u64::MAX), "about 584542046091 years");
        assert_eq!(span(0), "0 seconds");
        assert_eq!([brief(84), brief(86_394), brief(9 * DAY)], ["1 min", "24 h", "9 d"]);
        assert_eq!([brief(1), brief(u64::MAX)], ["1 s", "585 Gy"]);
    }
}
