//! A time server: `trawld`, with a key and a delegation in a folder of its own.

use super::programs::Programs;
use std::error::Error;
use std::fs;
use std::io::{BufRead, BufReader};
use std::net::SocketAddr;
use std::path::Path;
use std::process::{Child, ChildStdout, Stdio};

const SIGTERM: i32 = 15;

extern "C" {
    fn kill(process: i32, signal: i32) -> i32;
}

/// A server that runs until it is stopped or this is dropped.
pub struct Server {
    pub name: &'static str,
    /// Where it is asked.
    pub address: SocketAddr,
    child: Child,
    lines: BufReader<ChildStdout>,
}

impl Server {
    /// Starts one whose clock is so many seconds ahead of the machine's, at a free port.
    pub fn start(
        programs: &Programs,
        name: &'static str,
        folder: &Path,
        ahead: u64,
    ) -> Result<Server, Box<dyn Error>> {
        fs::create_dir_all(folder)?;
        let file = |name: &str| folder.join(name).display().to_string();
        let (key, delegation, clock) = (file("key"), file("delegation"), file("clock"));
        programs.printed("trawld", &["--make-key", &key])?;
        let delegate = ["--delegate", &key, "--days", "1", "--out", &delegation];
        programs.printed("trawld", &delegate)?;
        // A millisecond is what its kernel would call its clock's error.
        fs::write(&clock, format!("{ahead} 0 1000\n"))?;
        let words = ["--test-clock", &clock, "--listen", "127.0.0.1:0", "--no-tcp"];
        let mut command = programs.command("trawld", &[&[&delegation[..]], &words[..]].concat());
        let mut child = command.stdin(Stdio::null()).stdout(Stdio::piped()).spawn()?;
        let lines = BufReader::new(child.stdout.take().ok_or("it has no output")?);
        let mut server = Server { name, address: ([0, 0, 0, 0], 0).into(), child, lines };
        let said = server.line("listening at")?;
        server.address = said.rsplit(' ').next().unwrap_or_default().parse()?;
        Ok(server)
    }

    /// The next of its lines that has these words.
    fn line(&mut self, words: &str) -> Result<String, Box<dyn Error>> {
        let mut line = String::new();
        while !line.contains(words) {
            line.clear();
            if self.lines.read_line(&mut line)? == 0 {
                return Err(format!("{} never said '{words}'", self.name).into());
            }
        }
        Ok(line.trim_end().to_string())
    }

    /// Stops it, and returns what it counted.
    pub fn stop(mut self) -> Result<String, Box<dyn Error>> {
        // SAFETY: no pointer is passed, and the process is ours until it is waited for.
        unsafe { kill(i32::try_from(self.child.id())?, SIGTERM) };
        let line = self.line(" asked ")?;
        self.child.wait()?;
        // What it counted up to the packets that it answered or refused, without the date.
        let counted = line.split_once(' ').map_or("", |(_, counted)| counted);
        let end = counted.find(" elsewhere ").unwrap_or(counted.len());
        Ok(counted[..end].to_string())
    }
}

impl Drop for Server {
    fn drop(&mut self) {
        let _ = self.child.kill();
        let _ = self.child.wait();
    }
}
