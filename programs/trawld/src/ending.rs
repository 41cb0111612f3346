//! How the threads are told to end: a word that they look at, and a stream whose other end is
//! closed, by which they wake up.

use std::io;
use std::os::unix::io::{AsRawFd, RawFd};
use std::os::unix::net::UnixStream;
use std::sync::atomic::{AtomicBool, Ordering};
use std::sync::Arc;

#[derive(Clone, Debug)]
pub struct Ending {
    told: Arc<AtomicBool>,
    stream: Arc<UnixStream>,
}

/// Who has it can end all the others.
#[derive(Debug)]
pub struct Ender {
    told: Arc<AtomicBool>,
    stream: Option<UnixStream>,
}

pub fn ending() -> io::Result<(Ender, Ending)> {
    let (ours, theirs) = UnixStream::pair()?;
    let told = Arc::new(AtomicBool::new(false));
    let ender = Ender { told: told.clone(), stream: Some(ours) };
    Ok((ender, Ending { told, stream: Arc::new(theirs) }))
}

impl Ender {
    pub fn end(&mut self) {
        self.told.store(true, Ordering::SeqCst);
        self.stream = None;
    }
}

impl Ending {
    pub fn told(&self) -> bool {
        self.told.load(Ordering::SeqCst)
    }

    /// What can be read as soon as it is time to end.
    pub fn descriptor(&self) -> RawFd {
        self.stream.as_raw_fd()
    }
}
