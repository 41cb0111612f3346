//! A thread for each server: it resolves its names, asks it, and waits for its answer. Nobody else
//! waits for what it waits for.

use super::backoff::Backoff;
use super::line::{self, Line};
use super::moment::Moment;
use super::ways::{self, Way};
use crate::status::reason;
use std::sync::mpsc::{Receiver, Sender};
use std::sync::{Arc, Mutex, MutexGuard, PoisonError};
use trawlbeacon::{Address, Checked, PacketRefusal, Protocol, REQUEST_LENGTH};

/// A request, which is sent over and over up to a moment.
pub struct Job {
    /// By which its end is known.
    pub ticket: u64,
    pub request: [u8; REQUEST_LENGTH],
    pub until: Moment,
}

/// A valid answer.
pub struct Heard {
    pub response: Vec<u8>,
    pub checked: Checked,
    /// When the first copy of the request was sent. What answers a later one answers that one, too:
    /// whoever sits in between may have held it back.
    pub sent: Moment,
    pub received: Moment,
}

pub enum Event {
    /// A job has ended, with an answer or without.
    Done { server: usize, ticket: u64, heard: Option<Heard> },
    /// Somebody wants the program to end.
    End,
}

/// What a thread has done in this measurement, for all to see.
#[derive(Clone, Debug, Default)]
pub struct Tally {
    /// Requests that were sent.
    pub sent: u64,
    /// Packets that were refused, and why the last of them was.
    pub refused: u64,
    pub refusal: Option<PacketRefusal>,
    /// What the system said last, where something failed.
    pub failure: Option<String>,
    /// Which way the last answer came.
    pub way: Option<Way>,
}

#[derive(Clone, Default)]
pub struct Shared(Arc<Mutex<Tally>>);

impl Shared {
    pub fn lock(&self) -> MutexGuard<'_, Tally> {
        // A number that is half counted is no harm.
        self.0.lock().unwrap_or_else(PoisonError::into_inner)
    }

    /// A measurement begins, and what was counted before is over.
    pub fn start(&self) {
        let mut tally = self.lock();
        *tally = Tally { way: tally.way, ..Tally::default() };
    }
}

/// What the thread holds.
pub struct Worker {
    server: usize,
    key: [u8; 32],
    addresses: Vec<Address>,
    tally: Shared,
    events: Sender<Event>,
    ways: Vec<Way>,
    /// The place of the way that is next.
    turn: usize,
    backoff: Backoff,
    /// A job that came while another one was done.
    newer: Option<Job>,
}

impl Worker {
    pub fn new(
        server: usize,
        key: [u8; 32],
        addresses: Vec<Address>,
        tally: Shared,
        events: Sender<Event>,
    ) -> Worker {
        let (ways, backoff) = (Vec::new(), Backoff::default());
        Worker { server, key, addresses, tally, events, ways, turn: 0, backoff, newer: None }
    }

    /// Does one job after the other, until nobody wants to know of them.
    pub fn run(mut self, jobs: &Receiver<Job>) {
        while let Some(job) = self.newer.take().or_else(|| jobs.recv().ok()) {
            let heard = self.exchange(&job, jobs);
            let done = Event::Done { server: self.server, ticket: job.ticket, heard };
            if self.events.send(done).is_err() {
                break;
            }
        }
    }

    /// Sends the request until it is answered: each time after a longer wait, and the next way.
    /// Where another one waits, this one is not sent any more: a server that comes back is not to be
    /// asked all at once what it was not before.
    fn exchange(&mut self, job: &Job, jobs: &Receiver<Job>) -> Option<Heard> {
        let (mut lines, mut sent) = (Vec::new(), None);
        loop {
            let may = self.backoff.next().min(job.until);
            if let Some(heard) = self.listen(job, sent, &mut lines, may) {
                return Some(heard);
            }
            self.newer = jobs.try_iter().last();
            if job.until.is_past() {
                // Its addresses may be others by now.
                self.ways.clear();
            }
            if self.newer.is_some() || job.until.is_past() {
                return None;
            }
            self.resolve();
            // A name may have taken all the time there was.
            if job.until.is_past() {
                continue;
            }
            let now = Moment::now();
            self.backoff.tries(now);
            let next = self.backoff.next().min(job.until);
            if let Some(line) = self.send(&job.request, next) {
                sent.get_or_insert(now);
                lines.push(line);
            }
        }
    }

    fn resolve(&mut self) {
        if !self.ways.is_empty() {
            return;
        }
        match ways::of(&self.addresses) {
            Ok(ways) => self.ways = ways,
            Err(why) => self.tally.lock().failure = Some(why),
        }
    }

    /// Sends it the next way on which anything can be sent at all: where there is no network of a
    /// family, as no IPv6, nobody was asked.
    fn send(&mut self, request: &[u8], until: Moment) -> Option<Line> {
        for _ in 0..self.ways.len() {
            let way = self.ways[self.turn % self.ways.len()];
            self.turn += 1;
            match Line::open(way, request, until) {
                Ok(line) => {
                    self.tally.lock().sent += 1;
                    return Some(line);
                }
                Err(error) => {
                    self.tally.lock().failure = Some(format!("{}: {}", way.words(), reason(error)));
                    if way.protocol == Protocol::Tcp {
                        return None;
                    }
                }
            }
        }
        None
    }

    /// Waits for an answer, up to a moment, by whichever line it comes.
    fn listen(
        &mut self,
        job: &Job,
        sent: Option<Moment>,
        lines: &mut Vec<Line>,
        until: Moment,
    ) -> Option<Heard> {
        while !until.is_past() {
            line::wait(lines, until.left());
            let heard = lines.iter_mut().find_map(|line| self.heard(job, sent?, line));
            if heard.is_some() {
                return heard;
            }
            lines.retain(Line::is_open);
        }
        None
    }

    /// A valid answer among the packets that wait at a line.
    fn heard(&mut self, job: &Job, sent: Moment, line: &mut Line) -> Option<Heard> {
        let packets = line.waiting();
        self.note(line);
        packets.into_iter().find_map(|packet| self.check(job, sent, packet, line.way))
    }

    /// What went wrong on a line.
    fn note(&self, line: &mut Line) {
        if let Some(failure) = line.failure.take() {
            self.tally.lock().failure = Some(format!("{}: {failure}", line.way.words()));
        }
    }

    /// A packet, where it is a valid answer. Another one changes nothing but a count: the right one
    /// may come behind it.
    fn check(&mut self, job: &Job, sent: Moment, response: Vec<u8>, way: Way) -> Option<Heard> {
        let received = Moment::now();
        match trawlbeacon::check_signed(&self.key, &job.request, &response) {
            Ok(checked) => {
                self.backoff.answered();
                self.turn = self.ways.iter().position(|one| *one == way).unwrap_or(0);
                self.tally.lock().way = Some(way);
                Some(Heard { response, checked, sent, received })
            }
            Err(why) => {
                let mut tally = self.tally.lock();
                tally.refused += 1;
                tally.refusal = Some(why);
                None
            }
        }
    }
}
