//! A TCP connection: what came and is no whole packet yet, and what is still to be sent.

use crate::frame::{frame, Frame};
use std::io::{ErrorKind, Read, Write};
use std::net::TcpStream;
use std::time::Instant;

/// What is taken of a connection at once, so that none keeps the others waiting.
const AT_ONCE: usize = 1 << 14;

/// Answers that may wait for a client to take them. Until it does, no more of it is read.
const MOST_WAITING: usize = 1 << 16;

/// Why a connection is closed.
#[derive(Clone, Copy, Debug, PartialEq, Eq)]
pub enum Why {
    /// Its client closed it, or it broke.
    Gone,
    /// Nothing whole came for too long.
    Late,
    /// It sent more bytes than it may.
    Long,
    /// It sent what is no packet or no request.
    Broken,
}

pub struct Connection {
    pub stream: TcpStream,
    /// When it was taken, sent its last whole packet or took an answer.
    pub since: Instant,
    input: Vec<u8>,
    output: Vec<u8>,
    /// Bytes that it sent.
    bytes: u64,
    /// Why it is closed as soon as its answers are sent.
    closing: Option<Why>,
}

impl Connection {
    pub fn new(stream: TcpStream, now: Instant) -> Connection {
        let (input, output) = (Vec::new(), Vec::new());
        Connection { stream, since: now, input, output, bytes: 0, closing: None }
    }

    pub fn reads(&self) -> bool {
        self.closing.is_none() && self.output.len() < MOST_WAITING && self.input.len() < AT_ONCE
    }

    pub fn writes(&self) -> bool {
        !self.output.is_empty()
    }

    pub fn close(&mut self, why: Why) {
        self.closing = self.closing.or(Some(why));
    }

    /// Closes it for what it sent: what comes behind that is not read.
    pub fn break_off(&mut self) {
        self.input.clear();
        self.close(Why::Broken);
    }

    /// Receives what came, and closes it where it has sent too much.
    pub fn receive(&mut self, most: u64) {
        if !self.reads() {
            return;
        }
        let mut bytes = [0; AT_ONCE];
        match self.stream.read(&mut bytes) {
            Ok(0) => self.close(Why::Gone),
            Ok(count) => {
                self.input.extend_from_slice(&bytes[..count]);
                self.bytes += count as u64;
                if self.bytes > most {
                    self.close(Why::Long);
                }
            }
            Err(error) => self.unless_waiting(error.kind()),
        }
    }

    /// The next whole packet that came, if there is room for its answer.
    pub fn packet(&mut self, now: Instant) -> Option<Vec<u8>> {
        if self.output.len() >= MOST_WAITING {
            return None;
        }
        match frame(&self.input) {
            Frame::More => None,
            Frame::Whole(length) => {
                self.since = now;
                Some(self.input.drain(..length).collect())
            }
            Frame::Bad => {
                self.break_off();
                None
            }
        }
    }

    /// Whether a whole packet waits that may be answered.
    pub fn ready(&self) -> bool {
        self.output.len() < MOST_WAITING && matches!(frame(&self.input), Frame::Whole(_))
    }

    pub fn answer(&mut self, answer: &[u8]) {
        self.output.extend_from_slice(answer);
    }

    /// Sends what its client takes now.
    pub fn send(&mut self, now: Instant) {
        while !self.output.is_empty() {
            match self.stream.write(&self.output) {
                Ok(count) if count > 0 => {
                    self.output.drain(..count);
                    self.since = now;
                }
                Ok(_) => return,
                Err(error) => return self.unless_waiting(error.kind()),
            }
        }
    }

    fn unless_waiting(&mut self, kind: ErrorKind) {
        if !matches!(kind, ErrorKind::WouldBlock | ErrorKind::Interrupted) {
            self.output.clear();
            self.close(Why::Gone);
        }
    }

    /// Why it is over, if it is: nothing whole is left of what it sent, and all answers are sent.
    pub fn over(&self) -> Option<Why> {
        let left = matches!(frame(&self.input), Frame::Whole(_));
        self.closing.filter(|_| self.output.is_empty() && !left)
    }
}
