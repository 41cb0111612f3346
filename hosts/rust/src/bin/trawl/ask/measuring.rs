//! A measurement: all servers at once, so that the time is there after one round trip, and then a
//! walk for the evidence.

use super::asker::{Asker, Halt};
use super::dates::{fine, seconds_up, took};
use super::moment::Moment;
use super::told::{middle, Measured};
use super::walking::{self, Walked};
use crate::output;
use std::time::{Duration, SystemTime, UNIX_EPOCH};
use trawlbeacon::FEWEST_SERVERS;

/// How long all are waited for before the walk begins without the silent: one try by UDP, and one
/// by TCP.
const GRACE: Duration = Duration::from_millis(2_500);

/// A measurement that goes on.
struct Going<'a> {
    asker: &'a mut Asker,
    start: Moment,
    until: Moment,
    /// Whether people are told on the way.
    aloud: bool,
    there: Option<Duration>,
}

/// Measures, and takes no longer than this.
pub fn measure<'a>(
    asker: &'a mut Asker,
    within: Duration,
    aloud: bool,
    reports: Option<&'a str>,
) -> Result<Measured<'a>, Halt> {
    let start = Moment::now();
    let until = start.after(within);
    asker.ask_all(until)?;
    let mut going = Going { asker, start, until, aloud, there: None };
    going.gather(within)?;
    let walked = going.walk()?;
    let (there, asker) = (going.there, going.asker);
    let (time, machine) = (asker.time(), machine());
    let took = start.until(Moment::now());
    Ok(Measured { asker, time, machine, walked, there, took, reports, unwritten: false })
}

/// The machine's own date, in microseconds since 1970, and 0 where it is before that.
fn machine() -> u64 {
    let since = SystemTime::now().duration_since(UNIX_EPOCH).unwrap_or_default();
    u64::try_from(since.as_micros()).unwrap_or(u64::MAX)
}

impl Going<'_> {
    /// Takes what they answer, until all have, or enough for a walk and the others were waited for.
    fn gather(&mut self, within: Duration) -> Result<(), Halt> {
        let grace = self.start.after(GRACE.min(within / 4));
        while !self.until.is_past() && self.asker.answered() < self.asker.servers.len() {
            if grace.is_past() && self.asker.answered() >= FEWEST_SERVERS {
                break;
            }
            self.asker.next(if grace.is_past() { self.until } else { grace })?;
            self.tell(grace.is_past());
        }
        Ok(())
    }

    fn walk(&mut self) -> Result<Walked, Halt> {
        walking::walk(self.asker, self.until)
    }

    /// Tells the time as soon as it is there: one of which no end can be a liar's, or what there is
    /// where others are waited for.
    fn tell(&mut self, waiting: bool) {
        let Ok(time) = self.asker.time() else { return };
        if self.there.is_some() || !(waiting || time.is_exact(self.asker.liars())) {
            return;
        }
        let there = self.start.until(Moment::now());
        self.there = Some(there);
        if self.aloud {
            let (middle, radius) = middle(&time);
            let by = format!("{} of {}", self.asker.answered(), self.asker.servers.len());
            let (after, middle, about) = (took(there), fine(middle), seconds_up(radius));
            output::say(&format!(
                "after {after} it is {middle} UTC, give or take {about}, by {by}"
            ));
        }
    }
}
