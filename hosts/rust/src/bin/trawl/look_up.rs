//! A server, by its long-term key, in the owner's list and the shipped one.

use crate::flags::Flags;
use crate::keys::{bytes32, hex};
use crate::lists::Lists;
use crate::output;
use crate::status::{Ended, Stop};
use std::path::PathBuf;
use trawlbeacon::Refusal;

/// Prints the list, the place of the record in it, its key and its SRV value.
pub fn run(flags: &Flags) -> Result<Ended, Stop> {
    let key = bytes32(&flags.words[0])?;
    let files: Vec<PathBuf> = flags.words[1..].iter().map(PathBuf::from).collect();
    let found = Lists::of(&files)?.server(&key).ok_or(Refusal::UnknownServer)?;
    let srv = trawlbeacon::srv_value(&key);
    output::print(format!("{} {} {}\n", found.words(), hex(&key), hex(&srv)).as_bytes())
}
