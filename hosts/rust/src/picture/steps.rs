//! How far the seconds that are named below an axis are apart: by what people count in, seconds to
//! days, and above that in years, which are not all of one length.

use super::dates::{year_start, Date, DAY};

/// Steps of less than a day.
const WITHIN_A_DAY: [u64; 17] =
    [1, 2, 5, 10, 15, 30, 60, 120, 300, 600, 900, 1_800, 3_600, 7_200, 10_800, 21_600, 43_200];

/// So many days are the longest step that is not of years.
const MOST_DAYS: u64 = 100;

/// The shortest year.
const YEAR: u64 = 365 * DAY;

#[derive(Clone, Copy, Debug, PartialEq, Eq)]
pub(super) enum Step {
    Seconds(u64),
    Years(u64),
}

impl Step {
    /// The least round step that is not below so many seconds.
    pub fn of(least: u128) -> Step {
        if let Some(step) = WITHIN_A_DAY.into_iter().find(|step| u128::from(*step) >= least) {
            return Step::Seconds(step);
        }
        let days = round_up(least, DAY);
        if days <= MOST_DAYS {
            return Step::Seconds(days * DAY);
        }
        Step::Years(round_up(least, YEAR))
    }

    /// The first round second from this one on: a multiple of the step, or the start of a year that
    /// is one.
    pub fn round_from(self, second: u64) -> Option<u64> {
        match self {
            Step::Seconds(step) => multiple(second, step),
            Step::Years(years) => {
                let year = multiple(Date::of(second).year, years)?;
                let start = year_start(year)?;
                if start >= second {
                    Some(start)
                } else {
                    year_start(year.checked_add(years)?)
                }
            }
        }
    }

    /// How many seconds it has, at the least.
    pub fn seconds(self) -> u64 {
        match self {
            Step::Seconds(step) => step,
            Step::Years(years) => years.saturating_mul(YEAR),
        }
    }
}

/// The first multiple of a step from a number on.
fn multiple(from: u64, step: u64) -> Option<u64> {
    from.checked_add(step - 1).map(|last| last / step * step)
}

/// The least of 1, 2, 5, 10, 20 and so on, of which so many units are not below `least`.
fn round_up(least: u128, unit: u64) -> u64 {
    let mut ten = 1;
    loop {
        let rounds = [1, 2, 5].map(|times| times * ten);
        let enough = |round: &u128| round * u128::from(unit) >= least;
        match rounds.into_iter().find(enough) {
            // A step of 2^64 seconds has fewer than 2^64 units.
            Some(round) => return u64::try_from(round).unwrap_or(u64::MAX),
            None => ten *= 10,
        }
    }
}

#[cfg(test)]
mod tests {
    use super::{Date, Step, DAY, YEAR};

    #[test]
    fn steps_are_what_people_count_in() {
        let steps = [1, 3, 61, 43_201, 3 * u128::from(DAY), 90 * u128::from(DAY)].map(Step::of);
        let due = [1, 5, 120, DAY, 5 * DAY, 100 * DAY].map(Step::Seconds);
        assert_eq!(steps, due);
        let steps = [101 * u128::from(DAY), 12 * u128::from(YEAR)].map(Step::of);
        assert_eq!(steps, [Step::Years(1), Step::Years(20)]);
        assert_eq!(Step::of(u128::from(u64::MAX)), Step::Years(1_000_000_000_000));
    }

    #[test]
    fn round_years_start_them() {
        let mut second = 0;
        let mut years = Vec::new();
        while let Some(next) = Step::Years(20).round_from(second).filter(|_| years.len() < 4) {
            let date = Date::of(next);
            assert_eq!(date.to_string(), format!("{}-01-01 00:00:00", date.year));
            years.push(date.year);
            second = next + 1;
        }
        assert_eq!(years, [1980, 2000, 2020, 2040]);
        assert_eq!(Step::Years(1).round_from(0), Some(0));
        assert_eq!(Step::Years(1).round_from(1), Some(YEAR));
        assert_eq!(Step::Years(1).round_from(u64::MAX), None);
        assert_eq!(Step::Seconds(DAY).round_from(u64::MAX), None);
    }
}
