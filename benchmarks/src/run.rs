//! A run: it times subjects, holds them to their limits, and keeps what the page and the picture
//! are made of.

use crate::limits::{self, Limit, LIMITS};
use crate::measured::Measured;
use crate::sides::{Side, Subject, Work};
use crate::table::{or_none, wrapped, Columns, Table};
use crate::timing::Pace;
use std::time::Duration;

/// How often a subject is timed again, at the most, that is above a limit, so that it is sure that
/// it is. The best of all its turns counts.
const AGAIN: usize = 8;

/// A ratio that was held to a limit.
struct Held {
    limit: &'static str,
    subject: String,
    ratio: f64,
    highest: f64,
}

impl Held {
    /// How much of its limit it is.
    fn part(&self) -> f64 {
        self.ratio / self.highest
    }
}

/// What can stand on the page under a name.
pub struct Piece {
    pub name: &'static str,
    pub markdown: String,
}

/// A line of the picture: times by a number of things.
pub struct Line {
    pub chart: &'static str,
    pub name: &'static str,
    pub points: Vec<(f64, f64)>,
}

/// What is timed, and what came of it so far.
pub struct Run {
    pace: Pace,
    held: Vec<Held>,
    pub pieces: Vec<Piece>,
    pub lines: Vec<Line>,
}

impl Run {
    pub fn new(pace: Pace) -> Self {
        Run { pace, held: Vec::new(), pieces: Vec::new(), lines: Vec::new() }
    }

    /// Times a subject, and again where it is above a limit.
    pub fn time(&mut self, mut subject: Subject) -> Measured {
        let times = self.pace.best_times(&mut subject.works);
        let mut measured = Measured::new(subject.name, subject.length, times);
        for _ in 0..AGAIN {
            if subject.bounds.iter().any(|bound| measured.is_above(bound)) {
                measured.better(self.pace.best_times(&mut subject.works));
            }
        }
        for bound in &subject.bounds {
            let (limit, highest) = (bound.limit, bound.highest);
            let held = |ratio| Held { limit, subject: measured.name.clone(), ratio, highest };
            self.held.extend(measured.bounded(bound).map(held));
        }
        measured
    }

    /// Holds a ratio of ours that was not timed here to a limit.
    pub fn hold(&mut self, limit: &'static str, subject: &str, ratio: f64) {
        let highest = limits::highest(limit);
        self.held.push(Held { limit, subject: subject.to_string(), ratio, highest });
    }

    /// How long something is watched that cannot be called.
    pub fn span(&self) -> Duration {
        self.pace.span()
    }

    /// The seconds of one call, at a glance.
    pub fn glance(&self, work: Work) -> f64 {
        Pace::GLANCE.best_times(&mut [(Side::Ours, work)])[0].1
    }

    /// Times subjects, and makes a table of them.
    pub fn table(
        &mut self,
        mut table: Table,
        columns: &Columns,
        subjects: Vec<Subject>,
    ) -> Vec<Measured> {
        table.head = columns.head(&table.head[0]);
        let measured: Vec<Measured> =
            subjects.into_iter().map(|subject| self.time(subject)).collect();
        measured.iter().for_each(|measured| table.row(columns.row(measured)));
        self.put(table);
        measured
    }

    /// Prints a table, and keeps it for the page.
    pub fn put(&mut self, table: Table) {
        println!("{}", table.text());
        self.pieces.push(Piece { name: table.name, markdown: table.markdown() });
    }

    /// Prints a paragraph, and keeps it for the page.
    pub fn say(&mut self, name: &'static str, text: &str) {
        let text = wrapped(text);
        println!("{text}");
        self.pieces.push(Piece { name, markdown: text });
    }

    /// What is above its limit.
    pub fn above(&self) -> Vec<String> {
        let line = |Held { limit, subject, ratio, highest }: &Held| {
            let why = limits::of(limit).why;
            format!("{subject}: {ratio:.3} is above {highest:.3} ({limit}: {why})")
        };
        self.held.iter().filter(|held| held.ratio > held.highest).map(line).collect()
    }

    /// What came nearest to a limit.
    fn nearest(&self, limit: &Limit) -> Option<&Held> {
        let held = self.held.iter().filter(|held| held.limit == limit.name);
        held.max_by(|a, b| a.part().total_cmp(&b.part()))
    }

    /// The limits, each with what came nearest to it, and the nearest of all.
    pub fn limits(&mut self) {
        let head = ["Our time, of what by what", "at most", "seen"];
        let title = "the limits, each with the ratio that came nearest to it";
        let mut table = Table::new("limits", title, &head);
        for limit in LIMITS {
            let highest = limits::highest(limit.name);
            // What is held to a multiple of its limit is shown by the limit itself.
            let seen = self.nearest(limit).map(|held| format!("{:.3}", held.part() * highest));
            table.row(vec![limit.what.into(), format!("{highest:.2}"), or_none(seen)]);
        }
        self.put(table);
        let nearest = self.held.iter().max_by(|a, b| a.part().total_cmp(&b.part()));
        if let Some(Held { limit, subject, ratio, highest }) = nearest {
            let (limits, held) = (LIMITS.len(), self.held.len());
            let text = format!(
                "{held} ratios are held to {limits} limits. The nearest to its limit is {ratio:.3} \
                 of at most {highest:.2}: {subject} (`{limit}`)."
            );
            self.say("nearest", &text);
        }
    }
}
