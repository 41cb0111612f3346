//! How the command ends, and with which status.

use crate::names;
use std::fmt;
use std::path::Path;
use trawlbeacon::Refusal;

/// What came out, where the command did what it was asked for.
#[derive(Clone, Copy, Debug, PartialEq, Eq)]
pub enum Ended {
    /// It is done, or a run convicts.
    Done,
    /// No run convicts, and no list has the server.
    None,
    /// What was given is no pile, no report, no answers or no list.
    Refused,
    /// A run convicts, and a key of it is in no list.
    Unlisted,
    /// There is a time, and servers contradict each other.
    Contradicted,
    /// Servers were asked, and there is no time.
    NoTime,
    /// Servers contradict each other, and the report on it could not be written.
    Unwritten,
}

impl Ended {
    pub fn status(self) -> u8 {
        match self {
            Ended::Done => 0,
            Ended::None => 3,
            Ended::Refused => 4,
            Ended::Unlisted => 5,
            Ended::Contradicted => 6,
            Ended::NoTime => 7,
            Ended::Unwritten => 1,
        }
    }

    /// The same, or 0 for a verdict where nobody asked for a status of its own. Who gave a list has
    /// asked whether it has the keys.
    pub fn told(self, asked: bool) -> Ended {
        if asked || self == Ended::Unlisted {
            self
        } else {
            Ended::Done
        }
    }
}

/// Why the command could not do it.
#[derive(Debug)]
pub enum Stop {
    /// The arguments are wrong.
    Usage(String),
    /// Something could not be read, written or run.
    Failed(String),
    /// The library refuses it, and there is nothing to print.
    Refused(String),
    /// It is not there: a run, or a server.
    None(String),
    /// Nobody can be asked for the time.
    NoTime(String),
    /// Who read standard output has gone, as in `trawl --help | head -n 1`. Nobody is told of it.
    Unread,
}

impl Stop {
    pub fn status(&self) -> u8 {
        match self {
            Stop::Usage(_) => 2,
            Stop::Failed(_) | Stop::Unread => 1,
            Stop::Refused(_) => Ended::Refused.status(),
            Stop::None(_) => Ended::None.status(),
            Stop::NoTime(_) => Ended::NoTime.status(),
        }
    }

    /// A file, and what went wrong with it.
    pub fn file(file: &Path, error: impl fmt::Display) -> Stop {
        Stop::failed(&names::file(file), error)
    }

    /// The same of anything.
    pub fn failed(what: &str, error: impl fmt::Display) -> Stop {
        Stop::Failed(format!("{what}: {}", reason(error)))
    }

    /// What was refused, and what is wrong with it in particular.
    pub fn refused(refusal: Refusal, hints: &[String]) -> Stop {
        let words = format!("refused with code {}: {refusal}", refusal.code());
        let words = [&[words], hints].concat().join("\ntrawl: ");
        match refusal {
            Refusal::NoContradiction | Refusal::UnknownServer => Stop::None(words),
            _ => Stop::Refused(words),
        }
    }
}

/// What the system says of an error, without the number that it has for it.
pub fn reason(error: impl fmt::Display) -> String {
    let error = error.to_string();
    error.split(" (os error ").next().unwrap_or(&error).to_string()
}

impl From<Refusal> for Stop {
    fn from(refusal: Refusal) -> Stop {
        Stop::refused(refusal, &[])
    }
}

impl fmt::Display for Stop {
    fn fmt(&self, f: &mut fmt::Formatter) -> fmt::Result {
        match self {
            Stop::Usage(words) | Stop::Failed(words) | Stop::Refused(words) => f.write_str(words),
            Stop::None(words) | Stop::NoTime(words) => f.write_str(words),
            Stop::Unread => f.write_str("nobody reads standard output any more"),
        }
    }
}
