//! A TCP socket and its connections, all of one thread: what came over any of them is answered in
//! batches, as with UDP.

use crate::answering::Answering;
use crate::connection::{Connection, Why};
use crate::ending::Ending;
use crate::poll::{wait, Waited, READ, WRITE};
use std::io::ErrorKind;
use std::net::TcpListener;
use std::os::unix::io::AsRawFd;
use std::thread;
use std::time::{Duration, Instant};
use trawlbeacon::read_request;

/// What a connection may take of a server.
#[derive(Clone, Copy, Debug, PartialEq, Eq)]
pub struct Limits {
    pub connections: usize,
    /// Between two whole packets, or while an answer is not taken.
    pub idle: Duration,
    /// That one connection may send.
    pub bytes: u64,
}

/// Connections that are taken at once, so that those who have one are not kept waiting.
const AT_ONCE: usize = 64;

const REST: u16 = 1000;

/// What is waited where there is no connection that could go.
const NO_ROOM: Duration = Duration::from_millis(10);

pub struct Tcp {
    listener: TcpListener,
    answering: Answering,
    limits: Limits,
    connections: Vec<Connection>,
    /// The connection of each packet in the batch.
    owners: Vec<usize>,
}

impl Tcp {
    pub fn new(listener: TcpListener, answering: Answering, limits: Limits) -> Tcp {
        Tcp { listener, answering, limits, connections: Vec::new(), owners: Vec::new() }
    }

    pub fn serve(mut self, ending: &Ending) {
        let mut more = false;
        while !ending.told() {
            self.wait(ending, if more { 0 } else { REST });
            let now = Instant::now();
            self.collect(now);
            self.answer();
            for connection in &mut self.connections {
                connection.send(now);
            }
            self.end_some(now);
            more = self.connections.iter().any(Connection::ready);
        }
    }

    /// Waits for bytes, for room and for new connections, and takes all of them.
    fn wait(&mut self, ending: &Ending, milliseconds: u16) {
        let mut waited = vec![
            Waited::new(ending.descriptor(), READ),
            Waited::new(self.listener.as_raw_fd(), READ),
        ];
        waited.extend(self.connections.iter().map(|connection| {
            let read = if connection.reads() { READ } else { 0 };
            let write = if connection.writes() { WRITE } else { 0 };
            Waited::new(connection.stream.as_raw_fd(), read | write)
        }));
        wait(&mut waited, milliseconds);
        for (connection, waited) in self.connections.iter_mut().zip(&waited[2..]) {
            if waited.came() {
                connection.receive(self.limits.bytes);
            }
        }
        if waited[1].came() {
            self.take();
        }
        self.answering.rest();
    }

    /// Takes new connections. Where there are as many as there may be, the one goes that has been
    /// quiet for longest: so who is slow on purpose keeps nobody out.
    fn take(&mut self) {
        for _ in 0..AT_ONCE {
            let stream = match self.listener.accept() {
                Ok((stream, _)) => stream,
                Err(error) if error.kind() == ErrorKind::WouldBlock => return,
                // There is no descriptor or no memory for it, until another one goes.
                Err(_) => return self.make_room(),
            };
            if stream.set_nonblocking(true).is_err() {
                continue;
            }
            // Answers are small, and each is waited for.
            let _ = stream.set_nodelay(true);
            if self.connections.len() >= self.limits.connections {
                self.make_room();
            }
            self.connections.push(Connection::new(stream, Instant::now()));
            self.answering.counts.taken.add(1);
        }
    }

    fn make_room(&mut self) {
        let quiet = (0..self.connections.len()).min_by_key(|at| self.connections[*at].since);
        match quiet {
            Some(quiet) => {
                self.connections.swap_remove(quiet);
                self.answering.counts.crowded.add(1);
            }
            None => thread::sleep(NO_ROOM),
        }
    }

    /// Puts what came into a batch, a packet of each connection in turn.
    fn collect(&mut self, now: Instant) {
        self.answering.batch.clear();
        self.owners.clear();
        loop {
            let before = self.owners.len();
            for (at, connection) in self.connections.iter_mut().enumerate() {
                if self.answering.batch.slot().is_none() {
                    return;
                }
                if let Some(packet) = connection.packet(now) {
                    // Who sends what is no request has lost its place (draft 19, section 5). It
                    // goes into the batch all the same, where it is counted.
                    if read_request(&packet).is_err() {
                        connection.break_off();
                    }
                    // There is room, as was just seen.
                    let _ = self.answering.batch.push(&packet);
                    self.owners.push(at);
                }
            }
            if self.owners.len() == before {
                return;
            }
        }
    }

    fn answer(&mut self) {
        if self.owners.is_empty() {
            return;
        }
        self.answering.answer();
        let mut count = 0;
        for (place, answer) in self.answering.answers() {
            self.connections[self.owners[place]].answer(answer);
            count += 1;
        }
        self.answering.counts.answered.add(count);
    }

    /// Closes what is over and what is late.
    fn end_some(&mut self, now: Instant) {
        let (limits, counts) = (self.limits, &self.answering.counts);
        self.connections.retain(|connection| {
            let late = now.saturating_duration_since(connection.since) > limits.idle;
            let why = connection.over().or(late.then_some(Why::Late));
            match why {
                None => return true,
                Some(Why::Gone) => {}
                Some(Why::Late) => counts.late.add(1),
                Some(Why::Long) => counts.long.add(1),
                Some(Why::Broken) => counts.broken.add(1),
            }
            false
        });
        counts.open.set(self.connections.len() as u64);
    }
}
