//! Files that are written whole or not at all.
//!
//! The bytes go to a new file beside the one that is meant, and are brought to the disk before it
//! takes that one's name. So whatever happens on the way, a full disk too, the old file is there
//! with all its bytes or the new one is. The front end of `trawl`, the example `demo` and the
//! package `bench` take this file in by its path.

use std::fs::{self, File, OpenOptions};
use std::io::{self, ErrorKind, Write};
use std::path::{Path, PathBuf};
use std::process;

/// Whether a file that exists may be replaced.
#[derive(Clone, Copy, Debug, PartialEq, Eq)]
#[allow(dead_code)]
pub enum Existing {
    Kept,
    Replaced,
}

/// Writes a file. Where it exists and is to be kept, the error is `AlreadyExists`; also where
/// somebody else made it in the meantime, where the file system has hard links.
pub fn write(file: &Path, bytes: &[u8], existing: Existing) -> io::Result<()> {
    match fs::metadata(file) {
        Ok(_) if existing == Existing::Kept => Err(ErrorKind::AlreadyExists.into()),
        // A link stays one: what it leads to is replaced.
        Ok(found) if found.is_file() => replace(&fs::canonicalize(file)?, bytes, existing),
        // A device or a pipe has no name to give away.
        Ok(_) => OpenOptions::new().write(true).open(file)?.write_all(bytes),
        Err(error) if error.kind() == ErrorKind::NotFound => replace(file, bytes, existing),
        Err(error) => Err(error),
    }
}

fn replace(file: &Path, bytes: &[u8], existing: Existing) -> io::Result<()> {
    let (mut beside, name) = new_beside(file)?;
    let written = fill(&mut beside, bytes, file).and_then(|()| settle(&name, file, existing));
    if written.is_err() {
        // It was made here, and why it is not wanted is told in any case.
        let _ = fs::remove_file(&name);
    }
    written
}

/// A new file in the same folder, and so in the same file system. Nobody else's is opened.
fn new_beside(file: &Path) -> io::Result<(File, PathBuf)> {
    let mut count = 0;
    loop {
        let name = file.with_file_name(format!(".new-{}-{count}", process::id()));
        match OpenOptions::new().write(true).create_new(true).open(&name) {
            Err(error) if error.kind() == ErrorKind::AlreadyExists && count < 100 => count += 1,
            made => return made.map(|made| (made, name)),
        }
    }
}

/// Puts the bytes into it, with the permissions of the file that it is to replace.
fn fill(beside: &mut File, bytes: &[u8], file: &Path) -> io::Result<()> {
    if let Ok(found) = fs::metadata(file) {
        beside.set_permissions(found.permissions())?;
    }
    beside.write_all(bytes)?;
    beside.sync_all()
}

/// Gives it the name that is meant, and has the folder keep that. A second name for a file replaces
/// none, and so is what is tried where none may be replaced; some file systems know no such names.
fn settle(name: &Path, file: &Path, existing: Existing) -> io::Result<()> {
    let second = match existing {
        Existing::Kept => fs::hard_link(name, file),
        Existing::Replaced => Err(ErrorKind::Unsupported.into()),
    };
    match second {
        Ok(()) => fs::remove_file(name)?,
        Err(error) if error.kind() == ErrorKind::AlreadyExists => return Err(error),
        Err(_) => fs::rename(name, file)?,
    }
    let folder = file.parent().filter(|folder| !folder.as_os_str().is_empty());
    // Where a folder cannot be opened or synced the system sees to it in its own time.
    let _ = File::open(folder.unwrap_or_else(|| Path::new("."))).and_then(|it| it.sync_all());
    Ok(())
}
