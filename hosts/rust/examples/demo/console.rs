//! A console: the command `trawl`, what it is asked, and what it says.

use super::programs::Programs;
use super::teller::Teller;
use std::error::Error;
use std::io::{BufRead, BufReader, Read};
use std::process::Stdio;
use std::thread;

pub struct Console {
    pub programs: Programs,
    pub teller: Teller,
}

/// What it said, and the status that it ended with.
pub struct Said {
    pub lines: Vec<String>,
    pub status: Option<i32>,
}

impl Said {
    /// Whether a line begins with a word and has these words behind it.
    pub fn has(&self, word: &str, behind: &str) -> bool {
        let behind = |line: &String| line.strip_prefix(word).map_or(false, |l| l.contains(behind));
        self.lines.iter().any(behind)
    }
}

impl Console {
    /// Says each line as it comes, and keeps it.
    fn pass_on(&self, lines: impl Read) -> Vec<String> {
        let lines = BufReader::new(lines).lines().map_while(Result::ok);
        let said = |line: &String| self.teller.says("console", line.trim_start_matches("trawl: "));
        lines.inspect(said).collect()
    }

    /// Runs it with these words, and tells of it.
    pub fn runs(&self, words: &[&str]) -> Result<Said, Box<dyn Error>> {
        self.teller.says("console", format!("$ trawl {}", words.join(" ")));
        let mut command = self.programs.command("trawl", words);
        command.stdin(Stdio::null()).stdout(Stdio::piped()).stderr(Stdio::piped());
        let mut child = command.spawn()?;
        let (out, err) = (child.stdout.take(), child.stderr.take());
        let (Some(out), Some(err)) = (out, err) else { return Err("it has no output".into()) };
        let lines = thread::scope(|scope| {
            let aside = scope.spawn(|| self.pass_on(err));
            let lines = self.pass_on(out);
            aside.join().map(|_| lines)
        });
        let lines = lines.map_err(|_| "what it says could not be read")?;
        Ok(Said { lines, status: child.wait()?.code() })
    }
}
