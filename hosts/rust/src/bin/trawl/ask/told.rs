//! What a measurement came to, in lines for people.

use super::asker::Asker;
use super::dates::{fine, fine_up, seconds_up, took, whole};
use super::proof::Contradiction;
use super::walking::{WalkEnded, Walked};
use crate::names;
use crate::status::Ended;
use std::time::Duration;
use trawlbeacon::{Refusal, Time, FEWEST_SERVERS};

pub struct Measured<'a> {
    pub asker: &'a Asker,
    pub time: Result<Time, Refusal>,
    /// What the machine's own clock says beside it, in microseconds since 1970.
    pub machine: u64,
    pub walked: Walked,
    /// After how long the time was there, if it was.
    pub there: Option<Duration>,
    pub took: Duration,
    /// Where reports may be sent.
    pub reports: Option<&'a str>,
    /// Whether a report could not be written.
    pub unwritten: bool,
}

/// A number and what it counts.
pub fn plural(count: usize, one: &str, many: &str) -> String {
    format!("{count} {}", if count == 1 { one } else { many })
}

/// Between the two ends, rounded down, and how far they are from it.
pub fn middle(time: &Time) -> (u64, u64) {
    let half = (time.high - time.low) / 2;
    let middle = time.low + half;
    (middle, time.high - middle)
}

impl Measured<'_> {
    /// Whether servers contradict each other: by the answers of a walk, or by the windows of the
    /// clock.
    pub fn is_contradicted(&self) -> bool {
        let suspects = self.time.as_ref().map_or(false, |time| !time.suspects.is_empty());
        suspects || !self.walked.contradictions.is_empty()
    }

    pub fn ended(&self) -> Ended {
        match self.time {
            _ if self.unwritten => Ended::Unwritten,
            Err(_) => Ended::NoTime,
            Ok(_) if self.is_contradicted() => Ended::Contradicted,
            Ok(_) => Ended::Done,
        }
    }

    /// Those of the servers that are meant, by their names.
    fn names(&self, meant: impl Fn(usize) -> bool) -> Option<String> {
        let servers = self.asker.servers.iter().enumerate();
        let names: Vec<&str> = servers
            .filter(|(place, _)| meant(*place))
            .map(|(_, server)| &server.name[..])
            .collect();
        (!names.is_empty()).then(|| names.join(", "))
    }

    pub fn name(&self, server: usize) -> &str {
        &self.asker.servers[server].name
    }

    pub fn is_silent(&self, server: usize) -> bool {
        !self.asker.servers[server].answered
    }

    pub fn lines(&self) -> String {
        let mut lines = match &self.time {
            Ok(time) => self.time_lines(time),
            Err(why) => vec![("time", format!("none: {why}"))],
        };
        lines.extend(self.said_lines());
        lines.extend(self.silent_lines());
        lines.extend(self.refused_lines());
        lines.push(("walk", self.walk()));
        for found in &self.walked.contradictions {
            lines.extend(self.contradiction(found));
        }
        lines.into_iter().map(|(word, what)| format!("{word:<9}{what}\n")).collect()
    }

    fn time_lines(&self, time: &Time) -> Vec<(&'static str, String)> {
        let (middle, radius) = middle(time);
        let mut lines = match time.stopped {
            true => vec![
                ("time", "no end of it is known".to_string()),
                ("from", format!("{} UTC", fine(time.low))),
            ],
            false => vec![
                ("time", format!("{} UTC, give or take {}", fine(middle), seconds_up(radius))),
                ("from", format!("{} UTC", fine(time.low))),
                ("to", format!("{} UTC", fine_up(time.high))),
            ],
        };
        let agree = self.names(|server| time.agree.contains(server));
        let suspects = self.names(|server| time.suspects.contains(server));
        lines.push(("agree", agree.unwrap_or_else(|| "none".to_string())));
        lines.push(("suspect", suspects.unwrap_or_else(|| "none".to_string())));
        lines.push(("counted", self.counted(time)));
        lines.push(("machine", self.machine(time)));
        lines
    }

    /// What the machine's own clock says, which plays no part in it.
    fn machine(&self, time: &Time) -> String {
        let off = if self.machine < time.low {
            format!("{} before that", seconds_up(time.low - self.machine))
        } else if self.machine > time.high {
            format!("{} after that", seconds_up(self.machine - time.high))
        } else {
            "between the two".to_string()
        };
        format!("{} UTC by its own clock, {off}", fine(self.machine))
    }

    /// How far the time is to be believed.
    fn counted(&self, time: &Time) -> String {
        let (liars, asked) = (self.asker.liars(), self.asker.servers.len());
        let may = format!("{} of {asked}, of which {liars} may lie", time.counted);
        if time.is_exact(liars) {
            may
        } else {
            format!("{may}: it is between the ends, but an end may be a liar's")
        }
    }

    /// What the suspects said last; and where there is no time, what all did.
    fn said_lines(&self) -> Vec<(&'static str, String)> {
        let told = |server: usize| {
            let suspect = self.time.as_ref().map_or(true, |time| time.suspects.contains(server));
            let window = self.asker.servers[server].window.filter(|_| suspect)?;
            let (low, high) = (whole(window.low), whole(window.high));
            Some(("said", format!("{}: from {low} to {high} UTC", self.name(server))))
        };
        (0..self.asker.servers.len()).filter_map(told).collect()
    }

    fn silent_lines(&self) -> Vec<(&'static str, String)> {
        let silent = (0..self.asker.servers.len()).filter(|server| self.is_silent(*server));
        silent.map(|server| ("silent", self.silent(server))).collect()
    }

    /// What is known of one that has not answered.
    fn silent(&self, server: usize) -> String {
        let tally = self.asker.servers[server].tally.lock().clone();
        let sent = plural(tally.sent as usize, "request", "requests");
        let why = tally.failure.map_or(String::new(), |why| format!("; {why}"));
        format!("{}: {sent}, and no answer{why}", self.name(server))
    }

    fn refused_lines(&self) -> Vec<(&'static str, String)> {
        let told = |server: usize| {
            let tally = self.asker.servers[server].tally.lock().clone();
            let (why, count) =
                (tally.refusal?, plural(tally.refused as usize, "packet", "packets"));
            let name = self.name(server);
            Some((
                "refused",
                format!("{count} of {name}, the last with code {}: {why}", why.code()),
            ))
        };
        (0..self.asker.servers.len()).filter_map(told).collect()
    }

    fn walk(&self) -> String {
        let Walked { servers, answers, left_out, ended, .. } = &self.walked;
        let over = format!(
            "{} of {}, in {}",
            plural(*answers, "answer", "answers"),
            plural(servers.len(), "server", "servers"),
            took(self.took)
        );
        let without = self.names(|server| left_out.contains(&server));
        let without = without.map_or(String::new(), |names| format!("; left out: {names}"));
        match ended {
            WalkEnded::Consistent => format!("consistent: {over}{without}"),
            WalkEnded::Malfeasance => format!("malfeasance: {over}{without}"),
            WalkEnded::OutOfTime => {
                format!("unfinished, since the time was over; --within gives more: {over}{without}")
            }
            WalkEnded::TooFew => {
                let there = plural(servers.len(), "server answers", "servers answer");
                format!("none: {there}, and it takes {FEWEST_SERVERS}{without}")
            }
        }
    }

    fn contradiction(&self, found: &Contradiction) -> Vec<(&'static str, String)> {
        let (first, second) = (&found.first, &found.second);
        let low = whole(first.window.low);
        let high = whole(second.window.high);
        let (one, other) = (self.name(first.server), self.name(second.server));
        let mut lines = vec![
            ("lie", format!("{one} said that it was {low} UTC or later")),
            ("", format!("{other}, asked after that, said that it was {high} UTC or earlier")),
        ];
        if let Some(kept) = &found.kept {
            lines.push(("report", names::file(kept)));
            lines.extend(self.reports.map(|url| {
                ("send", format!("it to {}, by HTTP POST; nothing was sent", names::plain(url)))
            }));
        }
        lines
    }

    /// One line for who has no time: why, and what may help. The list may have others to ask.
    pub fn remedy(&self, others: bool) -> Option<String> {
        let why = self.time.as_ref().err()?;
        let (answered, asked) = (self.asker.answered(), self.asker.servers.len());
        Some(match why {
            Refusal::TooFew if answered == 0 => {
                let mut servers = self.asker.servers.iter();
                let failure = servers.find_map(|server| server.tally.lock().failure.clone());
                let failure = failure.map_or(String::new(), |why| format!(" ({why})"));
                format!(
                    "no server answers{failure}; is there a network, and is the list a new one?"
                )
            }
            Refusal::TooFew => format!(
                "{answered} of {asked} servers answered, and {} may lie; --within waits longer, \
                 and {}",
                self.asker.liars(),
                if others { "--all asks more of the list" } else { "a longer list has others" }
            ),
            Refusal::NoAgreement => format!(
                "more than {} of {asked} servers lie: no time is in the windows of the others; \
                 another list may help",
                self.asker.liars()
            ),
            other => other.to_string(),
        })
    }
}
