//! A server that a test started. It ends with the test.

use crate::folder::{Folder, PROGRAM};
use std::io::{BufRead, BufReader};
use std::net::SocketAddr;
use std::process::{Child, Command, ExitStatus, Stdio};
use std::sync::mpsc::{channel, Receiver};
use std::thread;
use std::time::{Duration, Instant};

/// Machines that test are busy with other things, too.
pub const PATIENCE: Duration = Duration::from_secs(60);

pub const SIGHUP: i32 = 1;
pub const SIGKILL: i32 = 9;
pub const SIGTERM: i32 = 15;

extern "C" {
    fn kill(process: i32, signal: i32) -> i32;
}

pub struct Server {
    child: Child,
    lines: Receiver<String>,
    pub addresses: Vec<SocketAddr>,
    pub key: [u8; 32],
}

impl Server {
    /// Trusts the clock, since nobody may keep that of a machine that tests.
    pub fn trusting(folder: &Folder, words: &[&str]) -> Server {
        Server::start(folder, &[&["--trust-clock"], words].concat())
    }

    /// Starts one with the folder's delegation, at a free port of loopback unless it is told another.
    pub fn start(folder: &Folder, words: &[&str]) -> Server {
        let mut command = Command::new(PROGRAM);
        command.current_dir(folder.path()).arg("delegation").args(words);
        let listens = words.iter().filter(|word| **word == "--listen").count();
        if listens == 0 {
            command.args(["--listen", "127.0.0.1:0"]);
        }
        let mut child = command.stdout(Stdio::piped()).spawn().expect("it can be started");
        let (sender, lines) = channel();
        let out = BufReader::new(child.stdout.take().expect("it is piped"));
        thread::spawn(move || {
            for line in out.lines().map_while(Result::ok) {
                let _ = sender.send(line);
            }
        });
        let mut server = Server { child, lines, addresses: Vec::new(), key: folder.public_key() };
        for _ in 0..listens.max(1) {
            let line = server.line("listening at");
            let address = line.rsplit(' ').next().and_then(|word| word.parse().ok());
            server.addresses.push(address.expect("it says where"));
        }
        server
    }

    pub fn address(&self) -> SocketAddr {
        self.addresses[0]
    }

    /// Waits for a line that has these words.
    pub fn line(&mut self, words: &str) -> String {
        let end = Instant::now() + PATIENCE;
        loop {
            let left = end.saturating_duration_since(Instant::now());
            let line = self.lines.recv_timeout(left);
            let line = line.unwrap_or_else(|_| panic!("it has not said '{words}'"));
            if line.contains(words) {
                return line;
            }
        }
    }

    pub fn signal(&self, number: i32) {
        signal(self.child.id(), number);
    }

    /// Tells it to end, and waits until it has.
    pub fn end(mut self, signal: i32) -> ExitStatus {
        self.signal(signal);
        self.child.wait().expect("it ends")
    }
}

/// To a process of ours that is not waited for yet.
pub fn signal(process: u32, number: i32) {
    // SAFETY: no pointer is passed.
    assert_eq!(unsafe { kill(i32::try_from(process).expect("it is one"), number) }, 0);
}

impl Drop for Server {
    fn drop(&mut self) {
        let _ = self.child.kill();
        let _ = self.child.wait();
    }
}
