//! The two processes that are flooded, and what the system says of them.

use super::echo::ECHO;
use std::fs;
use std::io::{BufRead, BufReader};
use std::net::{SocketAddr, UdpSocket};
use std::path::PathBuf;
use std::process::{Child, Command, Stdio};
use std::time::{Duration, Instant};
use std::{env, process};
use trawlbeacon::REQUEST_LENGTH;

/// The program, as ./bench builds it.
const TRAWLD: &str = "build/cargo/release/trawld";

/// Different requests of a flood.
const REQUESTS: usize = 16;

pub trait Process {
    fn address(&self) -> SocketAddr;
    fn child(&self) -> &Child;

    /// How long its threads have used the processor: the first number that the system has of each,
    /// in nanoseconds.
    fn used(&self) -> Duration {
        let threads = fs::read_dir(format!("/proc/{}/task", self.child().id()));
        let used = |thread: fs::DirEntry| {
            let text = fs::read_to_string(thread.path().join("schedstat")).ok()?;
            text.split_whitespace().next()?.parse::<u64>().ok()
        };
        let threads = threads.into_iter().flatten().filter_map(Result::ok);
        Duration::from_nanos(threads.filter_map(used).sum())
    }

    /// KiB of memory that it holds.
    fn memory(&self) -> u64 {
        let file = format!("/proc/{}/status", self.child().id());
        let text = fs::read_to_string(file).unwrap_or_default();
        let line = text.lines().find_map(|line| line.strip_prefix("VmRSS:")).unwrap_or_default();
        line.split_whitespace().next().and_then(|word| word.parse().ok()).unwrap_or(0)
    }
}

/// The next line of a child that ends in an address.
fn said_address(child: &mut Child) -> Option<SocketAddr> {
    let out = BufReader::new(child.stdout.take()?);
    out.lines().map_while(Result::ok).find_map(|line| line.rsplit(' ').next()?.parse().ok())
}

/// With a delegation in a folder of its own.
pub struct Trawld {
    child: Child,
    folder: PathBuf,
    address: SocketAddr,
    key: [u8; 32],
    /// From its start on.
    pub first_answer: Duration,
}

impl Trawld {
    pub fn start(sockets: usize) -> Option<Trawld> {
        let program = fs::canonicalize(TRAWLD).ok()?;
        let folder = env::temp_dir().join(format!("bench-trawld-{}-{sockets}", process::id()));
        fs::create_dir_all(&folder).ok()?;
        let run = |words: &[&str]| {
            let mut command = Command::new(&program);
            command.args(words).current_dir(&folder).stdout(Stdio::piped());
            command
        };
        let made = |words: &[&str]| run(words).status().map_or(false, |status| status.success());
        let delegate = ["--delegate", "key", "--days", "9", "--out", "delegation"];
        if !made(&["--make-key", "key"]) || !made(&delegate) {
            return None;
        }
        let start = Instant::now();
        let sockets = sockets.to_string();
        let listen = ["delegation", "--trust-clock", "--listen", "127.0.0.1:0", "--sockets"];
        let mut child = run(&[&listen[..], &[&sockets]].concat()).spawn().ok()?;
        let address = said_address(&mut child)?;
        let key = public_key(&fs::read_to_string(folder.join("key")).ok()?)?;
        let mut trawld = Trawld { child, folder, address, key, first_answer: Duration::ZERO };
        trawld.ask();
        trawld.first_answer = start.elapsed();
        Some(trawld)
    }

    pub fn requests(&self) -> Vec<Vec<u8>> {
        let request = |number: usize| {
            let (mut request, nonce) = (vec![0; REQUEST_LENGTH], [number as u8; 32]);
            trawlbeacon::write_request(&self.key, &nonce, &mut request).expect("there is room");
            request
        };
        (0..REQUESTS).map(request).collect()
    }

    /// Asks until it answers, as it should.
    fn ask(&self) {
        let (socket, request) =
            (UdpSocket::bind("127.0.0.1:0").expect("it binds"), self.requests());
        socket.set_read_timeout(Some(Duration::from_secs(1))).expect("it is not zero");
        let mut answer = [0; 2048];
        let length = loop {
            socket.send_to(&request[0], self.address).expect("it is sent");
            if let Ok(length) = socket.recv(&mut answer) {
                break length;
            }
        };
        let checked = trawlbeacon::check_signed(&self.key, &request[0], &answer[..length]);
        assert!(checked.is_ok(), "trawld's answer is valid");
    }
}

fn public_key(text: &str) -> Option<[u8; 32]> {
    let digits = text.lines().find_map(|line| line.strip_prefix("public "))?;
    let byte = |at: usize| u8::from_str_radix(digits.get(at..at + 2)?, 16).ok();
    let bytes: Option<Vec<u8>> = (0..digits.len()).step_by(2).map(byte).collect();
    bytes?.try_into().ok()
}

impl Process for Trawld {
    fn address(&self) -> SocketAddr {
        self.address
    }

    fn child(&self) -> &Child {
        &self.child
    }
}

impl Drop for Trawld {
    fn drop(&mut self) {
        let _ = self.child.kill();
        let _ = self.child.wait();
        let _ = fs::remove_dir_all(&self.folder);
    }
}

pub struct Echo {
    child: Child,
    address: SocketAddr,
}

impl Echo {
    pub fn start(sockets: usize) -> Option<Echo> {
        let mut command = Command::new(env::current_exe().ok()?);
        command.args([ECHO, &sockets.to_string()]).stdout(Stdio::piped());
        let mut child = command.spawn().ok()?;
        let address = said_address(&mut child)?;
        Some(Echo { child, address })
    }
}

impl Process for Echo {
    fn address(&self) -> SocketAddr {
        self.address
    }

    fn child(&self) -> &Child {
        &self.child
    }
}

impl Drop for Echo {
    fn drop(&mut self) {
        let _ = self.child.kill();
        let _ = self.child.wait();
    }
}
