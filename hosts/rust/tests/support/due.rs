//! What must be said of a pile, where it is known how it was made, and what a cutter must leave in a
//! buffer.

use super::answers::{Bad, Written};
use super::pile_answers::Reported;
use super::piles::Truth;
use super::Xorshift;
use independent::pile::RECORD;
use trawlbeacon::{Checked, Run};

/// What must be said of a pile.
pub enum Due {
    Known(Truth),
    /// The pile or its answers are none.
    Refused,
    Unknown,
}

impl Due {
    pub fn code(&self) -> Option<Result<(), Bad>> {
        match self {
            Due::Known(_) => Some(Ok(())),
            Due::Refused => Some(Err(Bad { code: 15, at: None })),
            Due::Unknown => None,
        }
    }

    pub fn contradiction(&self) -> Option<Result<(), Bad>> {
        match self {
            Due::Known(truth) if !truth.contradiction() => Some(Err(Bad { code: 18, at: None })),
            _ => self.code(),
        }
    }

    /// The byte of a refusal is for the independent side to say.
    pub fn verdict(&self, place: usize, at: Option<usize>) -> Option<Result<Checked, Bad>> {
        let verdict = match self {
            Due::Known(truth) => truth.verdicts.get(place).copied().unwrap_or(Err(15)),
            Due::Refused => Err(15),
            Due::Unknown => return None,
        };
        Some(verdict.map_err(|code| Bad { code, at }))
    }

    pub fn report(&self, at: Option<usize>) -> Option<Reported> {
        match self {
            Due::Known(truth) => {
                Some(Reported(truth.report().map_err(|(code, place)| (code, place, at))))
            }
            Due::Refused => Some(Reported(Err((15, None, None)))),
            Due::Unknown => None,
        }
    }

    /// What a cutter must answer, and leave in a buffer that held `before`.
    pub fn cut(&self, pile: &[u8], before: &[u8]) -> Option<Written<Run>> {
        let untouched =
            |code| Written { answer: Err(Bad { code, at: None }), buffer: before.to_vec() };
        match self {
            Due::Known(_) if before.len() < pile.len() => Some(untouched(19)),
            Due::Known(truth) => Some(
                truth.run().map_or(untouched(18), |(first, last)| taken(pile, before, first, last)),
            ),
            Due::Refused => Some(untouched(15)),
            Due::Unknown => None,
        }
    }
}

/// A run in a buffer, by the words of the document: its records, with the first one's rand set to
/// zero, and what stood behind.
fn taken(pile: &[u8], before: &[u8], first: usize, last: usize) -> Written<Run> {
    let run = &pile[first * RECORD..(last + 1) * RECORD];
    let buffer = [&run[..32], &[0; 32], &run[64..], &before[run.len()..]].concat();
    Written { answer: Ok(Run { first, last }), buffer }
}

/// Bytes for a buffer to hold, of which no two neighbours are equal, nor any where two records have
/// the same place.
pub fn pattern(random: &mut Xorshift, length: usize) -> Vec<u8> {
    let start = random.below(256);
    (0..length).map(|at| (start + at + at / RECORD) as u8).collect()
}
