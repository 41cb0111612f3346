//! unchanged LIST: ends with 0 where each file and folder of LIST is as LIST has it, and else with 1.
//!
//! LIST is what `tools/build-trawl` has find write: of each its type, size, inode, times of the last
//! writing and of the last change, and path, with a zero byte behind it. `./trawl` asks this at each
//! start, so that it opens none of them; the script says why nothing can change unseen.

use std::ffi::OsStr;
use std::fs::{self, FileType, Metadata};
use std::os::unix::ffi::OsStrExt;
use std::os::unix::fs::MetadataExt;
use std::process::ExitCode;
use std::{env, io};

fn main() -> ExitCode {
    let list = env::args_os().nth(1).and_then(|list| fs::read(list).ok()).unwrap_or_default();
    let mut records = list.split_inclusive(|byte| *byte == 0);
    match !list.is_empty() && records.all(|record| is_as_listed(record).unwrap_or(false)) {
        true => ExitCode::SUCCESS,
        false => ExitCode::FAILURE,
    }
}

/// Whether what a record names is still as the record has it.
fn is_as_listed(record: &[u8]) -> io::Result<bool> {
    let Some(record) = record.strip_suffix(&[0]) else { return Ok(false) };
    let Some(path) = record.splitn(6, |byte| *byte == b' ').nth(5) else { return Ok(false) };
    let now = fs::symlink_metadata(OsStr::from_bytes(path))?;
    Ok(record[..record.len() - path.len()] == *told(&now).as_bytes())
}

/// What find's `%y %s %i %T@ %C@ ` tells. Where another find tells it otherwise, nothing is ever
/// unchanged, which costs time alone.
fn told(found: &Metadata) -> String {
    let (size, inode) = (found.size(), found.ino());
    let (written, written_nsec) = (found.mtime(), found.mtime_nsec());
    let (changed, changed_nsec) = (found.ctime(), found.ctime_nsec());
    format!(
        "{} {size} {inode} {written}.{written_nsec:09}0 {changed}.{changed_nsec:09}0 ",
        letter(found.file_type())
    )
}

fn letter(kind: FileType) -> char {
    match (kind.is_file(), kind.is_dir(), kind.is_symlink()) {
        (true, _, _) => 'f',
        (_, true, _) => 'd',
        (_, _, true) => 'l',
        _ => '?',
    }
}
