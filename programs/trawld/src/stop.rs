//! Why the command could not do it, in one line with what to do about it.

use std::fmt;

#[derive(Debug)]
pub enum Stop {
    /// The arguments are wrong.
    Usage(String),
    /// Something could not be read, written or done.
    Failed(String),
}

impl Stop {
    pub fn status(&self) -> u8 {
        match self {
            Stop::Failed(_) => 1,
            Stop::Usage(_) => 2,
        }
    }
}

impl fmt::Display for Stop {
    fn fmt(&self, to: &mut fmt::Formatter<'_>) -> fmt::Result {
        let (Stop::Usage(words) | Stop::Failed(words)) = self;
        to.write_str(words)
    }
}

pub fn usage<T>(words: impl Into<String>) -> Result<T, Stop> {
    Err(Stop::Usage(words.into()))
}

pub fn failed<T>(words: impl Into<String>) -> Result<T, Stop> {
    Err(Stop::Failed(words.into()))
}
