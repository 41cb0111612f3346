//! Servers of the library's own on loopback, over UDP and TCP, honest and not, and their list.

// Each test file takes this in, and none of them needs all of it.
#![allow(dead_code)]

#[path = "../../examples/serving/mod.rs"]
mod serving;

use serving::{delegated, RADI};
use std::io::{Read, Write};
use std::net::{IpAddr, Ipv4Addr, SocketAddr, TcpListener, TcpStream, UdpSocket};
use std::sync::atomic::{AtomicBool, AtomicU64, Ordering};
use std::sync::{Arc, Mutex};
use std::thread;
use std::time::{Duration, Instant, SystemTime, UNIX_EPOCH};
use trawlbeacon::{Address, Batch, ListedServer, Protocol, ServerList, SigningKey, LONGEST_PACKET};

/// How long a thread waits for a packet before it looks whether it is to end.
const LOOK: Duration = Duration::from_millis(20);

const DAY: u64 = 86_400;

/// What a server is like. As it comes it is honest, and answers by UDP and by TCP.
#[derive(Clone, Debug)]
pub struct Plan {
    pub name: &'static str,
    /// How far its clock is ahead, in seconds.
    pub ahead: u64,
    /// Whether it answers by UDP, and by TCP.
    pub udp: bool,
    pub tcp: bool,
    /// It loses so many requests at first.
    pub loses: u64,
    /// After so many answers it is silent.
    pub answers: u64,
    /// Before each answer it sends so many damaged copies of it.
    pub damages: u64,
    /// It answers so late.
    pub delay: Duration,
    /// It answers from another port than it is asked at.
    pub elsewhere: bool,
    /// By TCP it sends this, and no answer.
    pub nonsense: &'static [u8],
    pub host: IpAddr,
}

impl Plan {
    pub fn new(name: &'static str) -> Plan {
        Plan {
            name,
            ahead: 0,
            udp: true,
            tcp: true,
            loses: 0,
            answers: u64::MAX,
            damages: 0,
            delay: Duration::ZERO,
            elsewhere: false,
            nonsense: b"",
            host: Ipv4Addr::LOCALHOST.into(),
        }
    }

    /// One that never answers.
    pub fn silent(name: &'static str) -> Plan {
        Plan { udp: false, tcp: false, ..Plan::new(name) }
    }

    pub fn start(self) -> Server {
        Server::start(self)
    }
}

/// A server that runs until this is dropped.
pub struct Server {
    pub name: &'static str,
    pub key: [u8; 32],
    pub address: SocketAddr,
    inner: Arc<Inner>,
    ended: Arc<AtomicBool>,
}

struct Inner {
    plan: Plan,
    batch: Mutex<Batch>,
    answered: AtomicU64,
    /// When requests came, by UDP and by TCP.
    came: Mutex<Vec<(Protocol, Instant)>>,
    /// From now on it is silent.
    off: AtomicBool,
}

fn now() -> u64 {
    SystemTime::now().duration_since(UNIX_EPOCH).expect("it is after 1970").as_secs()
}

/// Seeds that no other server of this run has.
fn key() -> SigningKey {
    static COUNT: AtomicU64 = AtomicU64::new(1);
    let mut seed = [9; 32];
    seed[..8].copy_from_slice(&COUNT.fetch_add(1, Ordering::SeqCst).to_le_bytes());
    SigningKey::new(&seed)
}

impl Server {
    fn start(plan: Plan) -> Server {
        let (long_term, times) = (key(), (now() - DAY, now() + DAY));
        let batch = delegated(&long_term, key(), times).expect("the times are in order");
        let (udp, tcp) = sockets(plan.host);
        let (name, address) = (plan.name, udp.local_addr().expect("it has one"));
        let inner = Arc::new(Inner {
            plan,
            batch: Mutex::new(batch),
            answered: AtomicU64::new(0),
            came: Mutex::default(),
            off: AtomicBool::new(false),
        });
        let ended = Arc::new(AtomicBool::new(false));
        spawn(&inner, &ended, move |inner| inner.datagram(&udp));
        // One that has no TCP refuses connections.
        if inner.plan.tcp || !inner.plan.nonsense.is_empty() {
            tcp.set_nonblocking(true).expect("it is a socket");
            spawn(&inner, &ended, move |inner| inner.connection(&tcp));
        }
        Server { name, key: long_term.public_key(), address, inner, ended }
    }

    pub fn switch_off(&self) {
        self.inner.off.store(true, Ordering::SeqCst);
    }

    /// How many requests came by a protocol.
    pub fn asked(&self, by: Protocol) -> usize {
        let came = self.inner.came.lock().expect("nobody panics with it");
        came.iter().filter(|(protocol, _)| *protocol == by).count()
    }

    /// The seconds between one request and the next.
    pub fn intervals(&self) -> Vec<f64> {
        let came = self.inner.came.lock().expect("nobody panics with it");
        came.windows(2).map(|two| (two[1].1 - two[0].1).as_secs_f64()).collect()
    }

    /// Its entry in a list, at its address by both protocols.
    pub fn listed(&self) -> ListedServer {
        self.listed_at(&self.address.to_string())
    }

    /// The same by one protocol alone.
    pub fn listed_by(&self, protocol: Protocol) -> ListedServer {
        let mut listed = self.listed();
        listed.addresses.retain(|address| address.protocol == protocol);
        listed
    }

    pub fn listed_at(&self, host_and_port: &str) -> ListedServer {
        let at = |protocol| Address { protocol, host_and_port: host_and_port.to_string() };
        let addresses = vec![at(Protocol::Udp), at(Protocol::Tcp)];
        ListedServer { name: self.name.to_string(), key: self.key, addresses }
    }
}

impl Drop for Server {
    fn drop(&mut self) {
        self.ended.store(true, Ordering::SeqCst);
    }
}

/// A port that is free for both protocols.
fn sockets(host: IpAddr) -> (UdpSocket, TcpListener) {
    for _ in 0..100 {
        let udp = UdpSocket::bind((host, 0)).expect("there is a free port");
        let at = udp.local_addr().expect("it has one");
        if let Ok(tcp) = TcpListener::bind(at) {
            udp.set_read_timeout(Some(LOOK)).expect("it is not zero");
            return (udp, tcp);
        }
    }
    panic!("no port is free for both");
}

fn spawn(
    inner: &Arc<Inner>,
    ended: &Arc<AtomicBool>,
    mut turn: impl FnMut(&Arc<Inner>) + Send + 'static,
) {
    let (inner, ended) = (Arc::clone(inner), Arc::clone(ended));
    thread::spawn(move || {
        while !ended.load(Ordering::SeqCst) {
            turn(&inner);
        }
    });
}

impl Inner {
    /// Whether a request that came is answered.
    fn answers(&self, by: Protocol) -> bool {
        let mut came = self.came.lock().expect("nobody panics with it");
        came.push((by, Instant::now()));
        let on = if by == Protocol::Udp { self.plan.udp } else { self.plan.tcp };
        let more = self.answered.load(Ordering::SeqCst) < self.plan.answers;
        on && more && came.len() as u64 > self.plan.loses && !self.off.load(Ordering::SeqCst)
    }

    /// The answer to a request, where it is one.
    fn answer(&self, request: &[u8]) -> Option<Vec<u8>> {
        let mut batch = self.batch.lock().expect("nobody panics with it");
        batch.clear();
        batch.push(request).expect("there is room");
        batch.answer(now() + self.plan.ahead, RADI).expect("the key is the right one");
        let answer = batch.answers().next().map(|(_, answer)| answer.to_vec());
        self.answered.fetch_add(1, Ordering::SeqCst);
        answer
    }

    fn datagram(self: &Arc<Inner>, socket: &UdpSocket) {
        let mut packet = [0; LONGEST_PACKET + 1];
        let Ok((length, from)) = socket.recv_from(&mut packet) else { return };
        if !self.answers(Protocol::Udp) {
            return;
        }
        let Some(answer) = self.answer(&packet[..length]) else { return };
        let from_port = match self.plan.elsewhere {
            true => UdpSocket::bind((self.plan.host, 0)).expect("there is a free port"),
            false => socket.try_clone().expect("it can be"),
        };
        let inner = Arc::clone(self);
        let send = move || {
            thread::sleep(inner.plan.delay);
            for count in 0..inner.plan.damages {
                let mut wrong = answer.clone();
                wrong[12 + 31 * count as usize % (answer.len() - 12)] ^= 1;
                let _ = from_port.send_to(&wrong, from);
            }
            let _ = from_port.send_to(&answer, from);
        };
        if self.plan.delay.is_zero() {
            send();
        } else {
            thread::spawn(send);
        }
    }

    fn connection(self: &Arc<Inner>, listener: &TcpListener) {
        match listener.accept() {
            Ok((stream, _)) => {
                let inner = Arc::clone(self);
                thread::spawn(move || inner.stream(stream));
            }
            Err(_) => thread::sleep(LOOK / 4),
        }
    }

    /// Answers requests until the client has no more. They come whole, as clients of these tests
    /// send them.
    fn stream(&self, mut stream: TcpStream) {
        let mut packet = [0; trawlbeacon::REQUEST_LENGTH];
        let _ = stream.set_nonblocking(false);
        let _ = stream.set_read_timeout(Some(Duration::from_secs(5)));
        while stream.read_exact(&mut packet).is_ok() {
            if !self.plan.nonsense.is_empty() {
                let _ = stream.write_all(self.plan.nonsense);
            } else if self.answers(Protocol::Tcp) {
                let Some(answer) = self.answer(&packet) else { return };
                // In two pieces, so that a client has to put them together.
                let _ = stream.write_all(&answer[..100]);
                thread::sleep(LOOK / 4);
                let _ = stream.write_all(&answer[100..]);
            }
        }
    }
}

/// The list of servers, as it is published.
pub fn list_of(servers: Vec<ListedServer>) -> Vec<u8> {
    let list = ServerList { servers, ..ServerList::default() };
    list.write().expect("its addresses are some").into_bytes()
}

pub fn list(servers: &[&Server]) -> Vec<u8> {
    list_of(servers.iter().map(|server| server.listed()).collect())
}

/// So many honest ones.
pub fn honest<const N: usize>(names: [&'static str; N]) -> [Server; N] {
    names.map(|name| Plan::new(name).start())
}

/// The same servers, lent.
pub fn lent<const N: usize>(servers: &[Server; N]) -> [&Server; N] {
    std::array::from_fn(|place| &servers[place])
}
