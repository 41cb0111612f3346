//! A crowd of sockets that ask, and among them packets of every kind that deserve no answer.
//!
//! Each answer is checked by the proved check and by the independent one. Each packet is accounted
//! for: what was sent was received or is counted by the system as dropped, and so with the answers.
//! 100,000 requests are sent, or as many as TRAWLD_REQUESTS says. With TRAWLD_TWICE=N the
//! independent one checks one answer and one signature in N: it takes the most of a client's time.

use crate::asking::connected;
use crate::folder::Folder;
use crate::random::Random;
use crate::server::{Server, SIGTERM};
use independent::ed25519::Ed25519;
use independent::write::padded_request;
use std::collections::HashMap;
use std::net::{SocketAddr, UdpSocket};
use std::time::{Duration, Instant, SystemTime, UNIX_EPOCH};
use std::{env, fs, thread};
use trawlbeacon::{Window, LONGEST_PACKET, LONGEST_TEXT, REQUEST_LENGTH};

/// Crowds of clients, a thread each, and the sockets of each crowd.
const CROWDS: usize = 4;
const SOCKETS: usize = 200;

/// So many sockets of a crowd ask at once, and the next ones in the next round. Linux by itself has
/// room for some hundred packets at a socket, and drops what comes beyond that. Where it has more
/// room, TRAWLD_AT_ONCE=200 has batches that are larger, and millions sooner.
const AT_ONCE: usize = 40;

/// Kinds of packets that deserve no answer. A crowd sends one in each round.
const KINDS: usize = 6;

/// How long a round waits for its answers.
const PATIENCE: Duration = Duration::from_millis(200);

/// What a usual request has of zeros, for its 1,036 bytes.
const PADDING: usize = 912;

/// What was said of signatures is forgotten beyond so many.
const REMEMBERED: usize = 5000;

/// What a variable says, or what is usual. A word that is no number is not passed over.
fn number(name: &str, usual: usize) -> usize {
    let word = env::var(name).unwrap_or_else(|_| usual.to_string());
    word.parse().unwrap_or_else(|_| panic!("{name} is no number: {word}"))
}

fn at_once() -> usize {
    number("TRAWLD_AT_ONCE", AT_ONCE).clamp(1, SOCKETS)
}

fn rounds() -> usize {
    number("TRAWLD_REQUESTS", 100_000) / CROWDS / at_once()
}

fn now() -> u64 {
    SystemTime::now().duration_since(UNIX_EPOCH).expect("it is after 1970").as_secs()
}

struct Client {
    socket: UdpSocket,
    /// Its requests that are not answered yet, with their nonces and when each was sent.
    waiting: Vec<([u8; 32], Vec<u8>, u64)>,
}

struct Crowd {
    key: [u8; 32],
    clients: Vec<Client>,
    undeserving: UdpSocket,
    random: Random,
    ed25519: Ed25519,
    /// What both said of each signature, under its key and for its text. A batch has one for all of
    /// its answers, and to verify it again for each would take most of the time.
    verified: HashMap<Vec<u8>, bool>,
    last: Vec<u8>,
    asked: u64,
    others: u64,
    heard: u64,
    /// One answer in so many is checked by both, and so many were.
    among: u64,
    twice: u64,
    at_once: usize,
}

impl Crowd {
    fn new(seed: u64, key: [u8; 32], server: SocketAddr) -> Crowd {
        let client = |_| Client { socket: connected(server), waiting: Vec::new() };
        Crowd {
            key,
            clients: (0..SOCKETS).map(client).collect(),
            undeserving: connected(server),
            random: Random::new(seed),
            ed25519: Ed25519::new(),
            verified: HashMap::new(),
            last: Vec::new(),
            asked: 0,
            others: 0,
            heard: 0,
            among: number("TRAWLD_TWICE", 1).max(1) as u64,
            twice: 0,
            at_once: at_once(),
        }
    }

    /// Asks from the sockets whose turn it is, and waits for the answers.
    fn round(&mut self, number: usize) {
        let count = self.at_once;
        let asking = (0..count).map(|at| (number * count + at) % SOCKETS);
        for at in asking.clone() {
            let client = &mut self.clients[at];
            let nonce = self.random.array();
            let request = padded_request(&self.key, &nonce, PADDING);
            let sent = now();
            client.socket.send(&request).expect("it is sent");
            client.waiting.push((nonce, request, sent));
            self.asked += 1;
        }
        let packet = self.undeserving_packet(number % KINDS);
        self.undeserving.send(&packet).expect("it is sent");
        self.others += 1;
        let end = Instant::now() + PATIENCE;
        for at in asking {
            while !self.clients[at].waiting.is_empty() && self.hear(at, end) {}
        }
    }

    /// A packet that no server may answer.
    fn undeserving_packet(&mut self, kind: usize) -> Vec<u8> {
        let (random, key) = (&mut self.random, &self.key);
        let mut usual = padded_request(key, &random.array(), PADDING);
        match kind {
            0 => {
                let length = random.below(LONGEST_PACKET + 2);
                random.bytes(length)
            }
            // Good, and shorter than the shortest answer.
            1 => padded_request(key, &random.array(), 4 * random.below(70)),
            // Cut off.
            2 => usual[..random.below(REQUEST_LENGTH)].to_vec(),
            // Damaged in what says how long it is and how many tags it has.
            3 => {
                usual[random.below(16)] ^= 1 << random.below(8);
                usual
            }
            // To another server.
            4 => padded_request(&[9; 32], &random.array(), PADDING),
            // What the server said itself: two servers that answered answers would never end.
            _ => self.last.clone(),
        }
    }

    /// Takes what a socket has by then. Tells whether there was something.
    fn hear(&mut self, at: usize, end: Instant) -> bool {
        let mut packet = [0; LONGEST_PACKET + 1];
        let left = end.saturating_duration_since(Instant::now()).max(Duration::from_micros(1));
        let client = &mut self.clients[at];
        client.socket.set_read_timeout(Some(left)).expect("it is not zero");
        let Ok(length) = client.socket.recv(&mut packet) else { return false };
        let response = &packet[..length];
        let nonce = trawlbeacon::read_response(response).expect("the server writes responses").nonc;
        let place = client.waiting.iter().position(|(asked, _, _)| *asked == nonce);
        let place = place.expect("it was asked, and not answered yet");
        let (_, request, sent) = client.waiting.remove(place);
        let window = self.check(&request, response);
        assert!(length <= request.len() && sent <= window.high && window.low <= now());
        self.last = response.to_vec();
        self.heard += 1;
        true
    }

    fn hear_the_rest(&mut self) {
        for at in 0..SOCKETS {
            self.clients[at].socket.set_nonblocking(true).expect("it can be set");
            while self.hear(at, Instant::now()) {}
        }
        self.undeserving.set_nonblocking(true).expect("it can be set");
        assert!(self.undeserving.recv(&mut [0; LONGEST_PACKET]).is_err());
    }

    /// What a client learns from an answer, by the library and, where it is its turn, by the other.
    fn check(&mut self, request: &[u8], response: &[u8]) -> Window {
        let parts = trawlbeacon::signed_parts(response).expect("it is a response");
        let (key, mut text) = (self.key, [0; LONGEST_TEXT]);
        let length = trawlbeacon::delegation_text(response, &mut text).expect("there is room");
        let delegation = self.verifies(&key, &text[..length], &parts.delegation);
        let length = trawlbeacon::response_text(response, &mut text).expect("there is room");
        let signature = self.verifies(&parts.pubk, &text[..length], &parts.signature);
        let ours = trawlbeacon::check_response(request, response, delegation, signature);
        let ours = ours.expect("it is valid");
        if self.heard % self.among == 0 {
            let other = independent::check::check(request, response, delegation, signature);
            let other = other.expect("it is valid");
            let (window, twin) = (ours.window, other.window);
            assert_eq!((ours.pubk, window.low, window.high), (other.pubk, twin.low, twin.high));
            self.twice += 1;
        }
        ours.window
    }

    fn verifies(&mut self, key: &[u8; 32], text: &[u8], signature: &[u8; 64]) -> bool {
        if self.verified.len() > REMEMBERED {
            self.verified.clear();
        }
        let (whole, ed25519) = ([&key[..], signature, text].concat(), &self.ed25519);
        let twice = self.verified.len() as u64 % self.among == 0;
        let verify = || {
            let ours = trawlbeacon::verify(key, text, signature);
            assert!(!twice || ours == ed25519.verify(key, text, signature));
            ours
        };
        *self.verified.entry(whole).or_insert_with(verify)
    }

    fn ports(&self) -> Vec<u16> {
        let sockets = self.clients.iter().map(|client| &client.socket).chain([&self.undeserving]);
        sockets.map(|socket| socket.local_addr().expect("it is bound").port()).collect()
    }
}

/// How many packets for these ports the system has dropped: the last column of Linux's table.
fn dropped(ports: &[u16]) -> u64 {
    let table = fs::read_to_string("/proc/net/udp").expect("this is Linux");
    let of = |line: &str| {
        let mut columns = line.split_whitespace();
        let (_, port) = columns.nth(1)?.split_once(':')?;
        let ours = ports.contains(&u16::from_str_radix(port, 16).ok()?);
        columns.last()?.parse::<u64>().ok().filter(|_| ours)
    };
    table.lines().skip(1).filter_map(of).sum()
}

/// A number out of the figures of UDP.
fn figure(figures: &str, name: &str) -> u64 {
    let udp = format!("trawld_{name}{{transport=\"udp\"}} ");
    let plain = format!("trawld_{name} ");
    let value = |line: &str| {
        line.strip_prefix(&udp).or_else(|| line.strip_prefix(&plain))?.parse::<u64>().ok()
    };
    figures.lines().find_map(value).expect("it is told")
}

/// Of a code, over UDP.
fn refused(figures: &str) -> u64 {
    let of = |line: &str| {
        let rest = line.strip_prefix("trawld_refused_total{transport=\"udp\",code=")?;
        rest.split(' ').nth(1)?.parse::<u64>().ok()
    };
    figures.lines().filter_map(of).sum()
}

#[test]
fn a_crowd_is_answered_and_nothing_else_is() {
    let folder = Folder::with_delegation(3);
    let server = Server::trusting(&folder, &["--sockets", "2", "--metrics", "figures"]);
    let (address, key) = (server.address(), server.key);
    let start = Instant::now();
    let run = |seed: usize| {
        thread::spawn(move || {
            let mut crowd = Crowd::new(seed as u64 + 1, key, address);
            (0..rounds()).for_each(|number| crowd.round(number));
            crowd
        })
    };
    let running: Vec<_> = (0..CROWDS).map(run).collect();
    let mut crowds: Vec<Crowd> =
        running.into_iter().map(|thread| thread.join().expect("no answer is wrong")).collect();
    let seconds = start.elapsed().as_secs_f64();
    // It answers what waits, tells what it counted, and ends.
    assert!(server.end(SIGTERM).success());
    crowds.iter_mut().for_each(Crowd::hear_the_rest);
    let sum = |of: fn(&Crowd) -> u64| crowds.iter().map(of).sum::<u64>();
    let (asked, others) = (sum(|crowd| crowd.asked), sum(|crowd| crowd.others));
    let heard = sum(|crowd| crowd.heard);
    let figures = folder.read("figures");
    let [received, answered, batches, there] =
        ["asked_total", "answered_total", "signatures_total", "dropped_total"]
            .map(|name| figure(&figures, name));
    let back = dropped(&crowds.iter().flat_map(Crowd::ports).collect::<Vec<u16>>());
    println!(
        "trawld: {asked} requests and {others} other packets from {} sockets in {seconds:.1} s; \
         {heard} answers, in {batches} batches, of which 0 are wrong and {} were checked twice; \
         dropped by the system: {there} there, {back} back",
        CROWDS * SOCKETS,
        sum(|crowd| crowd.twice)
    );
    assert_eq!((received + there, heard + back), (asked + others, answered));
    assert!(asked - heard <= there + back);
    assert!(batches < answered);
    // Each of the others is counted by why it has no answer.
    let ignored =
        refused(&figures) + figure(&figures, "elsewhere_total") + figure(&figures, "short_total");
    assert_eq!(received, answered + ignored);
    assert_eq!(figure(&figures, "unsent_total") + figure(&figures, "silent_total"), 0);
}
