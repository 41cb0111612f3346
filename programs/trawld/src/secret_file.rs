//! Files that hold a seed: nobody else may read them, and each is there whole or not at all.

use crate::stop::{failed, Stop};
use std::fs::{self, File, OpenOptions};
use std::io::{self, ErrorKind, Read, Write};
use std::os::unix::fs::{MetadataExt, OpenOptionsExt};
use std::path::{Path, PathBuf};
use std::process;
use std::ptr;
use std::sync::atomic::{compiler_fence, Ordering};

/// No file of ours is longer.
const LONGEST: u64 = 1 << 16;

/// Bits of a mode by which anybody may read, write or run it.
const ANYBODY: u32 = 0o007;

/// A text with a seed in it, which is overwritten where it is dropped.
pub struct Text(pub String);

impl Drop for Text {
    fn drop(&mut self) {
        // SAFETY: zeros are text, too.
        for byte in unsafe { self.0.as_bytes_mut() } {
            // SAFETY: the byte is ours. A volatile write is one that the compiler may not leave out.
            unsafe { ptr::write_volatile(byte, 0) };
        }
        compiler_fence(Ordering::SeqCst);
    }
}

/// Writes a new file that only its owner may read. Where there is one of that name, it is replaced
/// only if that is asked for, in one step.
pub fn write(file: &Path, text: &Text, replace: bool) -> Result<(), Stop> {
    let beside = beside(file);
    let written = fill(&beside, &text.0).and_then(|()| settle(&beside, file, replace));
    let shown = file.display();
    written.or_else(|error| {
        // It was made here, and why it is not wanted is told in any case.
        let _ = fs::remove_file(&beside);
        match error.kind() {
            ErrorKind::AlreadyExists if !replace => {
                failed(format!("{shown} is there already, and stays as it is; name another file"))
            }
            _ => failed(format!("{shown} could not be written: {error}; name another folder")),
        }
    })
}

fn beside(file: &Path) -> PathBuf {
    file.with_file_name(format!(".new-{}", process::id()))
}

fn fill(beside: &Path, text: &str) -> io::Result<()> {
    let mut made = OpenOptions::new().write(true).create_new(true).mode(0o600).open(beside)?;
    made.write_all(text.as_bytes())?;
    made.sync_all()
}

/// A second name for a file replaces none.
fn settle(beside: &Path, file: &Path, replace: bool) -> io::Result<()> {
    if replace {
        fs::rename(beside, file)?;
    } else {
        fs::hard_link(beside, file)?;
        // It has the other name as well.
        let _ = fs::remove_file(beside);
    }
    let folder = file.parent().filter(|folder| !folder.as_os_str().is_empty());
    // Where a folder cannot be synced the system sees to it in its own time.
    let _ = File::open(folder.unwrap_or_else(|| Path::new("."))).and_then(|it| it.sync_all());
    Ok(())
}

/// The text of a file that holds a seed, and that not just anybody may read.
pub fn read(file: &Path) -> Result<Text, Stop> {
    let shown = file.display();
    // All of its room at the start, so that no copy is left where it would have grown.
    let mut text = Text(String::with_capacity(2 * LONGEST as usize));
    let opened = File::open(file).and_then(|opened| {
        let mode = opened.metadata()?.mode();
        opened.take(LONGEST).read_to_string(&mut text.0)?;
        Ok(mode)
    });
    match opened {
        Ok(mode) if mode & ANYBODY != 0 => {
            failed(format!("{shown} can be read by anybody; 'chmod o= {shown}' ends that"))
        }
        Ok(_) => Ok(text),
        Err(error) => failed(format!(
            "{shown} could not be read: {error}; 'trawld --help' says how it is made"
        )),
    }
}
