//! Lists of servers as Python reads them: a third beside ours and the independent one. It is told a
//! text and says the whole list, or its code; where there is no Python, nobody is asked.

use super::hex;
use independent::list_text::{Cause, Listed};
use std::io::{BufReader, BufWriter, Read, Write};
use std::path::Path;
use std::process::{Child, ChildStdin, ChildStdout, Command, Stdio};

/// The length that ends a round.
const END: [u8; 4] = [0xff; 4];

pub struct Python {
    child: Child,
    to: BufWriter<ChildStdin>,
    from: BufReader<ChildStdout>,
}

impl Python {
    /// Starts it. There is none where the command is missing, or does not answer.
    pub fn start() -> Option<Self> {
        let script = Path::new(env!("CARGO_MANIFEST_DIR")).join("tests/support/lists_third.py");
        let mut child = Command::new("python3")
            .arg(script)
            .stdin(Stdio::piped())
            .stdout(Stdio::piped())
            .stderr(Stdio::null())
            .spawn()
            .ok()?;
        let to = BufWriter::new(child.stdin.take()?);
        let from = BufReader::new(child.stdout.take()?);
        let mut python = Python { child, to, from };
        // A command of that name may be there and be no Python.
        (python.round(&[b"[]".to_vec()]).ok()?[0] == "24").then_some(python)
    }

    /// What it says of each of some texts. It answers at the end of a round, so that neither side
    /// waits for the other.
    pub fn round(&mut self, texts: &[Vec<u8>]) -> std::io::Result<Vec<String>> {
        for text in texts {
            self.to.write_all(&(text.len() as u32).to_le_bytes())?;
            self.to.write_all(text)?;
        }
        self.to.write_all(&END)?;
        self.to.flush()?;
        texts.iter().map(|_| self.said()).collect()
    }

    fn said(&mut self) -> std::io::Result<String> {
        let mut length = [0; 4];
        self.from.read_exact(&mut length)?;
        let mut said = vec![0; u32::from_le_bytes(length) as usize];
        self.from.read_exact(&mut said)?;
        Ok(String::from_utf8_lossy(&said).into_owned())
    }
}

impl Drop for Python {
    /// It ends where its input does; a test that fails does not wait for that.
    fn drop(&mut self) {
        let _ = self.child.kill();
        let _ = self.child.wait();
    }
}

/// What the independent side says, in Python's words.
pub fn said(read: &Result<Listed, Cause>) -> String {
    let listed = match read {
        Ok(listed) => listed,
        Err(cause) => return cause.refusal().code().to_string(),
    };
    let mut lines = Vec::new();
    for server in &listed.servers {
        let version = String::from_utf8_lossy(&server.version);
        let (name, scheme) = (hex(&server.name), hex(&server.key_type));
        lines.push(format!("S {name} {version} {scheme} {}", hex(&server.key)));
        lines.extend(server.addresses.iter().map(|address| {
            let protocol = if address.tcp { "tcp" } else { "udp" };
            format!("A {protocol} {}", hex(&address.text))
        }));
    }
    lines.extend(listed.sources.iter().map(|url| format!("U {}", hex(url))));
    lines.extend(listed.reports.iter().map(|url| format!("R {}", hex(url))));
    lines.join("\n")
}
