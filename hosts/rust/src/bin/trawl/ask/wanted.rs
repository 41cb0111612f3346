//! What is wanted beside the list: how many servers, for how long, and how often.

use crate::flags::Flags;
use crate::names::plain;
use crate::status::Stop;
use std::ffi::OsStr;
use std::time::Duration;
use trawlbeacon::{FEWEST_SERVERS, MOST_SERVERS};

/// How many servers are asked where nobody says it. With five of them two may lie or be silent, and
/// a walk over three is left.
const USUAL: usize = 5;

/// How long it may take where nobody says it.
const WITHIN: Duration = Duration::from_secs(20);

/// The bounds of what may be wanted, in seconds.
const LEAST_WITHIN: f64 = 0.1;
const MOST_WITHIN: f64 = 3_600.0;
const LEAST_WATCH: f64 = 1.0;
const MOST_WATCH: f64 = 86_400.0;

pub struct Wanted {
    /// So many servers, if the list has them.
    pub servers: usize,
    pub count: Count,
    pub within: Duration,
    pub watch: Option<Duration>,
}

/// Who said how many.
#[derive(Clone, Copy, Debug, PartialEq, Eq)]
pub enum Count {
    Usual,
    Of,
    All,
}

impl Wanted {
    pub fn of(flags: &Flags) -> Result<Wanted, Stop> {
        let wrong = |words: String| flags.action.wrong(words);
        let (servers, count) = match (flags.all, flags.number("--of")) {
            (true, Some(_)) => {
                return Err(wrong("--all and --of cannot be asked for at once".to_string()))
            }
            (true, None) => (MOST_SERVERS, Count::All),
            (false, None) => (USUAL, Count::Usual),
            (false, Some(word)) => {
                let bounds = FEWEST_SERVERS..=MOST_SERVERS;
                let number = digits(word).and_then(|word| word.parse().ok());
                let number = number.filter(|number| bounds.contains(number)).ok_or_else(|| {
                    let word = plain(&word.to_string_lossy());
                    wrong(format!("--of takes {FEWEST_SERVERS} to {MOST_SERVERS}, and not {word}"))
                })?;
                (number, Count::Of)
            }
        };
        let asked = |flag: &str, least: f64, most: f64| match flags.number(flag) {
            None => Ok(None),
            Some(word) => seconds(word, least, most).map(Some).ok_or_else(|| {
                let word = plain(&word.to_string_lossy());
                wrong(format!("{flag} takes {least} to {most} seconds, and not {word}"))
            }),
        };
        let within = asked("--within", LEAST_WITHIN, MOST_WITHIN)?.unwrap_or(WITHIN);
        Ok(Wanted { servers, count, within, watch: asked("--watch", LEAST_WATCH, MOST_WATCH)? })
    }
}

/// A word of digits alone, and of points.
fn digits(word: &OsStr) -> Option<&str> {
    let word = word.to_str()?;
    word.chars().all(|letter| letter.is_ascii_digit() || letter == '.').then_some(word)
}

/// Whole seconds, or with a fraction.
fn seconds(word: &OsStr, least: f64, most: f64) -> Option<Duration> {
    let seconds: f64 = digits(word)?.parse().ok()?;
    (least..=most).contains(&seconds).then(|| Duration::from_secs_f64(seconds))
}

#[cfg(test)]
mod tests {
    use super::*;

    #[test]
    fn seconds_are_digits_and_a_point() {
        let read = |word: &str| seconds(OsStr::new(word), LEAST_WITHIN, MOST_WITHIN);
        assert_eq!(read("20"), Some(WITHIN));
        assert_eq!(read("0.1"), Some(Duration::from_millis(100)));
        assert_eq!(read("3600"), Some(Duration::from_secs(3_600)));
        for word in ["", "0", "0.09", "3600.1", "-1", "+5", "1e3", "inf", "NaN", "1.2.3", ".", "5s"]
        {
            assert_eq!(read(word), None, "{word}");
        }
    }
}
