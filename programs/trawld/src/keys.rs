//! The actions that make keys and delegations, and tell of them.

use crate::delegation::Delegation;
use crate::kernel_clock;
use crate::long_term::{self, LongTerm};
use crate::stop::{failed, usage, Stop};
use crate::words::Words;
use std::path::Path;

const DAY: u64 = 86_400;

/// The file that a flag names, where no other word is there.
pub fn file<'a>(words: &'a Words, flag: &'a str) -> Result<&'a Path, Stop> {
    match (words.value(flag), &words.words[..]) {
        (Some(file), []) => Ok(Path::new(file)),
        (None, _) => usage(format!("{flag} is missing; 'trawld --help' says what it takes")),
        (_, [word, ..]) => {
            let shown = word.to_string_lossy();
            usage(format!("'{}' belongs to no flag", shown.escape_debug()))
        }
    }
}

pub fn make_key(words: &Words) -> Result<String, Stop> {
    let file = file(words, "--make-key")?;
    let made = LongTerm::new()?;
    made.write(file)?;
    Ok(made.said())
}

/// Delegates for so many days from now, or from the second that is named.
pub fn delegate(words: &Words) -> Result<String, Stop> {
    let (key, out) = (file(words, "--delegate")?, file(words, "--out")?);
    let Some(days) = words.number("--days", 1, 3660)? else {
        return usage("--days is missing: for how many days, as --days 30");
    };
    let now = kernel_clock::wall() / 1_000_000;
    let mint = words.number("--from", 0, u64::MAX - 3660 * DAY)?.unwrap_or(now);
    let long_term = LongTerm::read(key)?;
    let made = Delegation::new(&long_term, mint, mint + days * DAY)?;
    made.write(out, words.has("--force"))?;
    Ok(long_term.said() + &made.said())
}

/// What may be told to anybody of a file with a key.
pub fn show(words: &Words) -> Result<String, Stop> {
    let file = file(words, "--show")?;
    match (Delegation::read(file), LongTerm::read(file)) {
        (Ok(delegation), _) => Ok(long_term::said(&delegation.long_term) + &delegation.said()),
        (_, Ok(long_term)) => Ok(long_term.said()),
        (Err(why), Err(other)) => neither(&why, &other),
    }
}

/// The public key in a file of either kind.
pub fn public_key(file: &Path) -> Result<[u8; 32], Stop> {
    match (Delegation::read(file), LongTerm::read(file)) {
        (Ok(delegation), _) => Ok(delegation.long_term),
        (_, Ok(long_term)) => Ok(long_term.public),
        (Err(why), Err(other)) => neither(&why, &other),
    }
}

/// Why a file is of neither kind: once, where it cannot even be read.
fn neither<T>(why: &Stop, other: &Stop) -> Result<T, Stop> {
    let (why, other) = (why.to_string(), other.to_string());
    if why == other {
        failed(why)
    } else {
        failed(format!("{why}; and {other}"))
    }
}
