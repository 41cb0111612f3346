//! Where the time comes from: the system's clocks, or for tests a file that turns them.

use crate::kernel_clock;
use std::fs;
use std::path::PathBuf;

/// What the clocks say, in microseconds.
#[derive(Clone, Copy, Debug, PartialEq, Eq)]
pub struct Reading {
    /// The time, since 1970.
    pub wall: u64,
    /// The clock that only goes forward.
    pub moment: u64,
    /// How far the time may be off, and nothing where nobody keeps the clock right.
    pub error: Option<u64>,
}

#[derive(Clone, Debug, PartialEq, Eq)]
pub enum Source {
    System,
    /// For tests: the system's clocks, turned by what stands in this file whenever they are read:
    /// seconds that the time is put forward, seconds that the other clock is, and how many
    /// microseconds the time may be off, or a word where nobody keeps it right.
    Turned(PathBuf),
}

impl Source {
    pub fn read(&self) -> Reading {
        let reading = || Reading {
            wall: kernel_clock::wall(),
            moment: kernel_clock::moment(),
            error: kernel_clock::error(),
        };
        match self {
            Source::System => reading(),
            Source::Turned(file) => {
                turned(reading(), &fs::read_to_string(file).unwrap_or_default())
            }
        }
    }
}

fn turned(reading: Reading, by: &str) -> Reading {
    let mut words = by.split_whitespace();
    let mut seconds = || words.next().and_then(|word| word.parse::<i64>().ok()).unwrap_or(0);
    let forward = |clock: u64, seconds: i64| {
        let by = seconds.unsigned_abs().saturating_mul(1_000_000);
        if seconds < 0 {
            clock.saturating_sub(by)
        } else {
            clock.saturating_add(by)
        }
    };
    let wall = forward(reading.wall, seconds());
    let moment = forward(reading.moment, seconds());
    Reading { wall, moment, error: words.next().and_then(|word| word.parse().ok()) }
}

#[cfg(test)]
mod tests {
    use super::*;

    #[test]
    fn a_file_turns_both_clocks() {
        let reading = Reading { wall: 10_000_000, moment: 5_000_000, error: None };
        let put = |by| turned(reading, by);
        assert_eq!(put(""), reading);
        let ahead = Reading { wall: 13_000_000, moment: 6_000_000, error: Some(7) };
        assert_eq!(put("3 1 7\n"), ahead);
        assert_eq!(put("-20 0 no"), Reading { wall: 0, ..reading });
    }
}
