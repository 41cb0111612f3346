//! What an operator hears of a server at work: lines, and figures in a file.

use crate::counts::Sum;
use crate::delegation::Delegation;
use crate::figures::{line, metrics, State};
use crate::lines::Lines;
use crate::serve::Served;
use crate::threads::Threads;
use crate::timekeeper::Timekeeper;
use crate::watch::Watch;
use crate::whole::{self, Existing};
use std::time::{Duration, Instant};

/// The figures are written so often.
const WRITTEN: Duration = Duration::from_secs(10);

pub struct Teller<'a> {
    served: &'a Served,
    lines: &'a Lines,
    keeper: Timekeeper,
    watch: Watch,
    ends: (u64, u64),
    told: Sum,
    next_line: Instant,
    next_figures: Instant,
    /// What went wrong with the figures, which is said once.
    wrong: Option<String>,
}

impl<'a> Teller<'a> {
    pub fn new(served: &'a Served, lines: &'a Lines, delegation: &Delegation) -> Teller<'a> {
        let now = Instant::now();
        Teller {
            served,
            lines,
            keeper: Timekeeper::new(served.policy.clone()),
            watch: Watch::default(),
            ends: (delegation.mint, delegation.maxt),
            told: Sum::default(),
            next_line: now + served.every,
            next_figures: now,
            wrong: None,
        }
    }

    fn second(&self) -> u64 {
        self.keeper.reading().wall / 1_000_000
    }

    /// Tells what is to be told now.
    pub fn tick(&mut self, threads: &Threads) {
        let told = self.keeper.now();
        for words in self.watch.look(self.second(), told, self.ends) {
            self.lines.say(&words);
        }
        let now = Instant::now();
        if now >= self.next_line {
            self.next_line = now + self.served.every;
            self.line(threads);
        }
        if now >= self.next_figures {
            self.next_figures = now + WRITTEN;
            self.figures(threads);
        }
    }

    fn line(&mut self, threads: &Threads) {
        let sum = threads.sum();
        self.lines.say(&line(self.second(), &sum, &self.told));
        self.told = sum;
    }

    /// Writes the figures. Where that fails the server goes on without them.
    fn figures(&mut self, threads: &Threads) {
        let Some(file) = &self.served.metrics else { return };
        let second = self.second();
        let within = (self.ends.0..=self.ends.1).contains(&second);
        let radi = self.keeper.now().ok().filter(|_| within).map(|told| told.radi);
        let (udp, tcp) = threads.sums();
        let text = metrics(&udp, &tcp, State { maxt: self.ends.1, radi });
        let wrong = whole::write(file, text.as_bytes(), Existing::Replaced).err();
        let wrong = wrong.map(|error| {
            format!("{} could not be written: {error}; it is tried again", file.display())
        });
        if let Some(words) = wrong.as_ref().filter(|_| wrong != self.wrong) {
            self.lines.say(words);
        }
        self.wrong = wrong;
    }

    /// The last that is told.
    pub fn end(&mut self, threads: &Threads) {
        self.line(threads);
        self.figures(threads);
        self.lines.say("ended");
    }

    /// Takes a new delegation, or stays with the old one.
    pub fn reload(&mut self, threads: &Threads) {
        match Delegation::read(&self.served.delegation) {
            Ok(delegation) => {
                self.ends = (delegation.mint, delegation.maxt);
                threads.delegate(&delegation);
                self.lines.say(&format!("took a new {}", delegation.said().trim_end()));
            }
            Err(why) => self.lines.say(&format!("the old delegation stays: {why}")),
        }
    }
}
