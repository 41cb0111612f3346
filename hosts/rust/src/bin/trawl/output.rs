//! Where words and bytes go.

use crate::flags::Flags;
use crate::standard_output;
use crate::status::{Ended, Stop};
use crate::whole::{self, Existing};
use std::io::{self, ErrorKind, Write};

/// Says something beside what was asked for. Where that cannot be said, there is nobody to tell.
pub fn say(words: &str) {
    let _ = writeln!(io::stderr(), "trawl: {words}");
}

/// Writes all of it to standard output, or tells that it could not.
pub fn print(bytes: &[u8]) -> Result<Ended, Stop> {
    match standard_output::print(bytes) {
        Ok(()) => Ok(Ended::Done),
        Err(error) if error.kind() == ErrorKind::BrokenPipe => Err(Stop::Unread),
        Err(error) => Err(Stop::failed("standard output", error)),
    }
}

/// Writes it where the flags say. A file must not exist unless that is wanted, and is written whole
/// or not at all.
pub fn deliver(flags: &Flags, bytes: &[u8]) -> Result<Ended, Stop> {
    let Some(out) = &flags.out else { return print(bytes) };
    let existing = if flags.force { Existing::Replaced } else { Existing::Kept };
    match whole::write(out, bytes, existing) {
        Ok(()) => Ok(Ended::Done),
        Err(error) if error.kind() == ErrorKind::AlreadyExists => {
            Err(Stop::file(out, "it exists, and --force is not given"))
        }
        Err(error) => Err(Stop::file(out, error)),
    }
}
