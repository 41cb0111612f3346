//! What an operator is told of the clock and of the delegation, once each time that it changes.

use crate::date::date;
use crate::timekeeper::{Silence, Told, HOLD};

/// So long before its end a delegation is to be replaced.
const WARNED: u64 = 86_400;

#[derive(Clone, Copy, Debug, PartialEq, Eq)]
enum Clock {
    Told,
    Silent(Silence),
}

#[derive(Clone, Copy, Debug, PartialEq, Eq)]
enum Span {
    Early,
    Within,
    LastDay,
    Over,
}

/// What was said last.
#[derive(Debug, Default)]
pub struct Watch {
    clock: Option<Clock>,
    span: Option<(Span, u64)>,
}

impl Watch {
    /// What is to be said at this second of a server whose delegation is from `mint` to `maxt`.
    pub fn look(
        &mut self,
        second: u64,
        told: Result<Told, Silence>,
        (mint, maxt): (u64, u64),
    ) -> Vec<String> {
        let mut lines = Vec::new();
        let clock = told.map_or_else(Clock::Silent, |_| Clock::Told);
        if self.clock.replace(clock) != Some(clock) {
            lines.extend(self.clock_line(clock, told));
        }
        let span = match () {
            () if second < mint => Span::Early,
            () if second > maxt => Span::Over,
            () if second.saturating_add(WARNED) > maxt => Span::LastDay,
            () => Span::Within,
        };
        if self.span.replace((span, maxt)) != Some((span, maxt)) {
            lines.push(span_line(span, mint, maxt));
        }
        lines
    }

    fn clock_line(&self, clock: Clock, told: Result<Told, Silence>) -> Option<String> {
        match clock {
            Clock::Told => {
                told.ok().map(|told| format!("answering, with a radius of {} seconds", told.radi))
            }
            Clock::Silent(Silence::Unsynchronised) => Some(
                "silent: the kernel says that nobody keeps its clock right; start an NTP client, \
                 or give --trust-clock"
                    .to_string(),
            ),
            Clock::Silent(Silence::Jumped) => Some(format!(
                "silent for {} seconds: the clock jumped; see what sets it",
                HOLD / 1_000_000
            )),
        }
    }
}

fn span_line(span: Span, mint: u64, maxt: u64) -> String {
    let (from, to) = (date(mint), date(maxt));
    let next = "make the next one with --delegate, put it in its place and send SIGHUP";
    match span {
        Span::Early => format!("silent: the delegation begins at {from}"),
        Span::Within => format!("the delegation ends at {to}"),
        Span::LastDay => format!("THE DELEGATION ENDS at {to}, in less than a day; {next}"),
        Span::Over => format!("silent: THE DELEGATION ENDED at {to}; {next}"),
    }
}

#[cfg(test)]
mod tests {
    use super::*;

    #[test]
    fn it_says_once_what_changes() {
        let (mut watch, told) = (Watch::default(), Ok(Told { midp: 0, radi: 3 }));
        let maxt = 1_000_000;
        let mut look = |second| watch.look(second, told, (10, maxt)).join(" ");
        assert!(look(9).ends_with("silent: the delegation begins at 1970-01-01T00:00:10Z"));
        assert!(look(10).starts_with("the delegation ends at"));
        assert_eq!(look(maxt - WARNED), "");
        assert!(look(maxt - WARNED + 1).contains("in less than a day"));
        assert_eq!(look(maxt), "");
        assert!(look(maxt + 1).starts_with("silent: THE DELEGATION ENDED"));
        assert_eq!(look(maxt + 2), "");
    }
}
