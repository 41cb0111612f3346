//! The parts of a run, in their order.

use crate::run::Run;
use crate::{
    batches, counted, daemon, doubling, hashes, lists, memory, piles, refused, servers, signed,
    signing,
};
use crate::{texts, trees, verifying, walks, whence, windows, worst};

pub struct Part {
    pub name: &'static str,
    pub what: &'static str,
    pub run: fn(&mut Run),
}

const fn part(name: &'static str, what: &'static str, run: fn(&mut Run)) -> Part {
    Part { name, what, run }
}

/// What `./bench NAME` runs. The script reads these lines for `./bench --list`.
pub const PARTS: &[Part] = &[
    part("piles", "a full pile by the independent checker, also over sha2", piles::part),
    part("growth", "a pile's time by its records, siblings and packets", piles::growth),
    part("refused", "piles with something wrong in them", refused::part),
    part("verify", "one verification, by OpenSSL's and libsodium's too", verifying::part),
    part("sign", "one signature, by OpenSSL's and libsodium's too", signing::part),
    part("signed", "a response and full piles by their own signatures", signed::part),
    part("counted", "how many verifications a call makes", counted::part),
    part("walks", "a step of the measuring walk", walks::part),
    part("servers", "a server's batches of 1 to 1,024", servers::part),
    part("batches", "whole batches in one call, and by steps", batches::part),
    part("trees", "rows, roots and paths by their hashing", trees::part),
    part("json", "reports read, written and cut as JSON", texts::part),
    part("texts", "long texts that are read as reports", texts::long),
    part("lists", "lists of servers read as JSON", lists::part),
    part("hash", "SHA-512 by sha2's, and in pieces", hashes::part),
    part("windows", "windows in one pass and by pairs", windows::part),
    part("worst", "the slowest input of each operation by a usual one", worst::part),
    part("doubled", "what twice the bytes take", doubling::part),
    part("whence", "where the time goes: instructions by crate", whence::part),
    part("daemon", "trawld beside a bare UDP echo, its memory and its start", daemon::part),
    part("memory", "stack of each operation, heap, the archive by crate", memory::part),
];

/// The parts of these names, in their order; all of them where there is no name.
pub fn named(names: &[String]) -> Result<Vec<&'static Part>, String> {
    let known = |name: &&String| PARTS.iter().any(|part| part.name == name.as_str());
    if let Some(name) = names.iter().find(|name| !known(name)) {
        return Err(format!("there is no part {name}; ./bench --list names them"));
    }
    let wanted = |part: &&Part| names.is_empty() || names.iter().any(|name| name == part.name);
    Ok(PARTS.iter().filter(wanted).collect())
}
