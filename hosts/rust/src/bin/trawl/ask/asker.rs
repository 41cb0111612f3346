//! Who asks: the servers that were chosen, a thread for each, and the clock into which all goes
//! that is heard. It lasts as long as the program, so that a later measurement has what was heard
//! before.

use super::moment::Moment;
use super::random;
use super::worker::{Event, Heard, Job, Shared, Worker};
use crate::output;
use crate::status::{reason, Stop};
use std::sync::mpsc::{channel, Receiver, RecvTimeoutError, Sender};
use std::thread;
use trawlbeacon::{Clock, ListedServer, Refusal, Time, Window, REQUEST_LENGTH};

/// How far the machine's own clock may go wrong, in parts of a million: 100 by a cheap crystal, and
/// 500 by which the system may slew it.
const DRIFT: u32 = 600;

pub struct Server {
    pub name: String,
    pub key: [u8; 32],
    pub tally: Shared,
    jobs: Sender<Job>,
    /// The newest window that it signed.
    pub window: Option<Window>,
    /// Whether it has answered in this measurement.
    pub answered: bool,
}

pub struct Asker {
    pub servers: Vec<Server>,
    clock: Clock,
    events: Receiver<Event>,
    /// By which others tell of events.
    pub sender: Sender<Event>,
    tickets: u64,
}

/// Why a measurement did not come to its end.
pub enum Halt {
    /// Somebody wants the program to end.
    Ended,
    Failed(Stop),
}

impl From<Stop> for Halt {
    fn from(stop: Stop) -> Halt {
        Halt::Failed(stop)
    }
}

/// A job that has ended.
pub struct Done {
    pub ticket: u64,
    pub heard: Option<Heard>,
}

impl Asker {
    pub fn new(chosen: Vec<ListedServer>) -> Result<Asker, Stop> {
        let (sender, events) = channel();
        let mut servers = Vec::new();
        for (place, ListedServer { name, key, addresses }) in chosen.into_iter().enumerate() {
            let (tally, (jobs, waiting)) = (Shared::default(), channel());
            let worker = Worker::new(place, key, addresses, tally.clone(), sender.clone());
            // Nobody waits for its end: where it hangs in a name, the program ends without it.
            thread::Builder::new()
                .spawn(move || worker.run(&waiting))
                .map_err(|error| Stop::failed("a thread", reason(error)))?;
            let (window, answered) = (None, false);
            servers.push(Server { name, key, tally, jobs, window, answered });
        }
        Ok(Asker { servers, clock: Clock::start(DRIFT)?, events, sender, tickets: 0 })
    }

    /// How many of the servers may lie: fewer than half of those that are asked.
    pub fn liars(&self) -> u64 {
        (self.servers.len() as u64 - 1) / 2
    }

    /// The time now, by all that was heard.
    pub fn time(&self) -> Result<Time, Refusal> {
        self.clock.now(Moment::now().micros_up(), self.liars())
    }

    /// How many have answered in this measurement.
    pub fn answered(&self) -> usize {
        self.servers.iter().filter(|server| server.answered).count()
    }

    /// Asks all servers at once, each with a nonce of its own. They are part of no walk.
    pub fn ask_all(&mut self, until: Moment) -> Result<(), Stop> {
        for server in 0..self.servers.len() {
            self.servers[server].answered = false;
            self.servers[server].tally.start();
            let mut request = [0; REQUEST_LENGTH];
            trawlbeacon::write_request(&self.servers[server].key, &random::bytes()?, &mut request)?;
            self.ask(server, request, until);
        }
        Ok(())
    }

    /// Has a request sent to a server, and tells by which ticket its end will be known.
    pub fn ask(&mut self, server: usize, request: [u8; REQUEST_LENGTH], until: Moment) -> u64 {
        self.tickets += 1;
        let job = Job { ticket: self.tickets, request, until };
        // A thread that has gone answers no more, as a silent server does.
        let _ = self.servers[server].jobs.send(job);
        self.tickets
    }

    /// The next job that ends, if one does up to this moment. What was heard is in the clock then.
    pub fn next(&mut self, until: Moment) -> Result<Option<Done>, Halt> {
        match self.events.recv_timeout(until.left()) {
            Ok(Event::End) => Err(Halt::Ended),
            Ok(Event::Done { server, ticket, heard }) => {
                if let Some(heard) = &heard {
                    self.take(server, heard);
                }
                Ok(Some(Done { ticket, heard }))
            }
            // There is always a sender, since this has one.
            Err(RecvTimeoutError::Timeout | RecvTimeoutError::Disconnected) => Ok(None),
        }
    }

    fn take(&mut self, server: usize, heard: &Heard) {
        let (sent, received) = (heard.sent.micros_down(), heard.received.micros_up());
        let window = heard.checked.window;
        match self.clock.take(server, &window, sent, received) {
            Ok(()) => {
                self.servers[server].window = Some(window);
                self.servers[server].answered = true;
            }
            Err(why) => {
                let name = &self.servers[server].name;
                output::say(&format!("an answer of {name} is not counted: {why}"));
            }
        }
    }
}
