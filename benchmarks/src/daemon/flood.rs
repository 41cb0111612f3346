//! Clients that ask as fast as they are answered: each socket has the same number of requests
//! waiting all the time, and asks once more for each answer. Whom they ask makes no difference.

use crate::poll::{wait, Waited, READ};
use std::net::{SocketAddr, UdpSocket};
use std::os::unix::io::AsRawFd;
use std::thread;
use std::time::{Duration, Instant};

const CLIENTS: usize = 2;

/// Sockets of each client, so that the system can share out what they send.
const SOCKETS: usize = 16;

/// Requests of a socket that wait at once. All of them fit the room that a server's socket has.
const WAITING: usize = 8;

/// After so many milliseconds an answer that has not come is taken for lost.
const PATIENCE: u16 = 50;

pub struct Flooded {
    pub answers: u64,
    pub seconds: f64,
}

struct Client<'a> {
    sockets: Vec<UdpSocket>,
    requests: &'a [Vec<u8>],
    /// Requests that were sent, over all sockets.
    sent: usize,
    answers: u64,
}

/// A socket that sends to a server, and waits for nothing.
pub fn connected(server: SocketAddr) -> UdpSocket {
    let socket = UdpSocket::bind("127.0.0.1:0").expect("there is a free port");
    socket.connect(server).expect("it is an address");
    socket.set_nonblocking(true).expect("it is ours");
    socket
}

impl Client<'_> {
    fn ask(&mut self, at: usize, times: usize) {
        for _ in 0..times {
            // What cannot be sent is not answered, either.
            let _ = self.sockets[at].send(&self.requests[self.sent % self.requests.len()]);
            self.sent += 1;
        }
    }

    /// Takes what came to a socket.
    fn hear(&mut self, at: usize) -> usize {
        let mut packet = [0; 2048];
        let heard = (0..WAITING).take_while(|_| self.sockets[at].recv(&mut packet).is_ok()).count();
        self.answers += heard as u64;
        heard
    }

    /// Waits until an answer is there. Tells whether one came in time.
    fn wait(&self) -> bool {
        let waited = self.sockets.iter().map(|socket| Waited::new(socket.as_raw_fd(), READ));
        let mut waited: Vec<Waited> = waited.collect();
        wait(&mut waited, PATIENCE);
        waited.iter().any(Waited::came)
    }

    /// Asks until then, and takes the last answers.
    fn run(mut self, end: Instant) -> u64 {
        (0..SOCKETS).for_each(|at| self.ask(at, WAITING));
        loop {
            let over = Instant::now() >= end;
            let mut heard = 0;
            for at in 0..SOCKETS {
                let here = self.hear(at);
                heard += here;
                if !over {
                    self.ask(at, here);
                }
            }
            match heard > 0 || self.wait() {
                true => {}
                false if over => return self.answers,
                false => (0..SOCKETS).for_each(|at| self.ask(at, WAITING)),
            }
            if over && self.answers as usize >= self.sent {
                return self.answers;
            }
        }
    }
}

pub fn flood(server: SocketAddr, requests: &[Vec<u8>], span: Duration) -> Flooded {
    let start = Instant::now();
    let client = || {
        let sockets = (0..SOCKETS).map(|_| connected(server)).collect();
        Client { sockets, requests, sent: 0, answers: 0 }.run(start + span)
    };
    let answers = thread::scope(|scope| {
        let running: Vec<_> = (0..CLIENTS).map(|_| scope.spawn(client)).collect();
        running.into_iter().map(|one| one.join().expect("it ends")).sum()
    });
    Flooded { answers, seconds: start.elapsed().as_secs_f64() }
}

/// How long one request takes there and back where nothing else is asked: the best of so many, since
/// a busy machine only adds to it, and the one in the middle.
pub fn at_rest(server: SocketAddr, request: &[u8], times: usize) -> (Duration, Duration) {
    let (socket, mut packet) = (connected(server), [0; 2048]);
    socket.set_nonblocking(false).expect("it is ours");
    let once = |_| {
        let start = Instant::now();
        socket.send(request).expect("it is sent");
        socket.recv(&mut packet).expect("it is answered");
        start.elapsed()
    };
    let mut spans: Vec<Duration> = (0..times.max(1)).map(once).collect();
    spans.sort();
    (spans[0], spans[spans.len() / 2])
}
