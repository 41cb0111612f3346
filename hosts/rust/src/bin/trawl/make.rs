//! A pile of captured packets.

use crate::evidence;
use crate::flags::Flags;
use crate::keys::bytes32;
use crate::output;
use crate::status::{Ended, Stop};
use std::ffi::OsString;
use std::path::Path;
use trawlbeacon::{Record, SignedPile};

pub fn run(flags: &Flags) -> Result<Ended, Stop> {
    let mut pile = SignedPile::new();
    for words in flags.words.chunks_exact(4) {
        pile.push(&record(words)?)?;
    }
    output::deliver(flags, pile.bytes())
}

/// The record of a key, a rand and two files.
fn record(words: &[OsString]) -> Result<Record, Stop> {
    let key = bytes32(&words[0])?;
    let rand = if words[1] == "-" { [0; 32] } else { bytes32(&words[1])? };
    let packet = |word: &OsString| evidence::read(Path::new(word));
    Ok(Record::new(&key, &rand, &packet(&words[2])?, &packet(&words[3])?)?)
}
