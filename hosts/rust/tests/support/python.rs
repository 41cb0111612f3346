//! Python's reader of JSON, as a third beside ours and the independent one. It is asked whether a
//! text is JSON, and nothing else; where there is no Python, nobody is asked.

use independent::json::{self, Fault};
use std::collections::BTreeMap;
use std::io::{BufReader, BufWriter, Read, Write};
use std::path::Path;
use std::process::{Child, ChildStdin, ChildStdout, Command, Stdio};

/// Texts are sent in rounds of so many.
const ROUND: usize = 1_000;

/// How deep a text is read here for the comparison. Python stops at some 1,000.
const DEEP: usize = 500;

/// The length that ends a round.
const END: [u8; 4] = [0xff; 4];

pub struct Python {
    child: Child,
    to: BufWriter<ChildStdin>,
    from: BufReader<ChildStdout>,
    /// What is sent and not answered yet, with the numbers of the texts.
    round: Vec<(usize, Vec<u8>)>,
    /// How often each pair of answers was met: Python's letter, and what the independent side says.
    pub met: BTreeMap<(char, &'static str), usize>,
    /// Where they differ, but for what is Python's own.
    pub differing: Vec<String>,
}

impl Python {
    /// Starts it. There is none where the command is missing, or does not answer.
    pub fn start() -> Option<Self> {
        let script = Path::new(env!("CARGO_MANIFEST_DIR")).join("tests/support/json_third.py");
        let mut child = Command::new("python3")
            .arg(script)
            .stdin(Stdio::piped())
            .stdout(Stdio::piped())
            .stderr(Stdio::null())
            .spawn()
            .ok()?;
        let to = BufWriter::new(child.stdin.take()?);
        let from = BufReader::new(child.stdout.take()?);
        let (met, round, differing) = (BTreeMap::new(), vec![], vec![]);
        let mut python = Python { child, to, from, round, met, differing };
        // A command of that name may be there and be no Python.
        python.send(b"[]").ok()?;
        (python.letters(1).ok()? == b"j").then_some(python)
    }

    fn send(&mut self, text: &[u8]) -> std::io::Result<()> {
        self.to.write_all(&(text.len() as u32).to_le_bytes())?;
        self.to.write_all(text)
    }

    fn letters(&mut self, count: usize) -> std::io::Result<Vec<u8>> {
        self.to.write_all(&END)?;
        self.to.flush()?;
        let mut letters = vec![0; count];
        self.from.read_exact(&mut letters)?;
        Ok(letters)
    }

    /// Asks about a text, sooner or later.
    pub fn ask(&mut self, number: usize, text: &[u8]) {
        self.send(text).expect("Python reads on");
        self.round.push((number, text.to_vec()));
        if self.round.len() == ROUND {
            self.finish_round();
        }
    }

    fn finish_round(&mut self) {
        let letters = self.letters(self.round.len()).expect("Python answers");
        for ((number, text), letter) in std::mem::take(&mut self.round).iter().zip(letters) {
            let letter = char::from(letter);
            let (said, fits) = compare(letter, json::read(text, DEEP).err());
            *self.met.entry((letter, said)).or_insert(0) += 1;
            if !fits && self.differing.len() < 10 {
                let text = String::from_utf8_lossy(text);
                self.differing.push(format!("text {number}: Python {letter}, {said}: {text}"));
            }
        }
    }

    /// Waits for the last answers.
    pub fn finish(&mut self) {
        self.finish_round();
    }
}

impl Drop for Python {
    /// It ends where its input does; a test that fails does not wait for that.
    fn drop(&mut self) {
        let _ = self.child.kill();
        let _ = self.child.wait();
    }
}

/// What the independent side says, and whether that fits Python's letter. Where Python is asked for
/// more than it reads, or takes what JSON has not, the difference is its own.
fn compare(letter: char, fault: Option<Fault>) -> (&'static str, bool) {
    match fault {
        None => ("JSON", matches!(letter, 'j' | 'd' | 'i')),
        Some(Fault::Utf8(_)) => ("not UTF-8", letter == 'u'),
        Some(Fault::Depth) => ("deeper than 500", letter != 'u'),
        Some(Fault::Value | Fault::Number) => ("not JSON", matches!(letter, 'n' | 'c' | 'd' | 'i')),
        Some(_) => ("not JSON", matches!(letter, 'n' | 'd' | 'i')),
    }
}
