//! The lines that a server says while it runs. A thread of their own writes them, so that who does
//! not read them holds up nothing: where they are not taken, the newest are lost.

use crate::standard_output::print;
use std::sync::mpsc::{sync_channel, Receiver, SyncSender};
use std::thread;
use std::time::Duration;

/// Lines that may wait to be written.
const MOST: usize = 256;

/// At the end what waits is written, unless that takes longer.
const LAST: Duration = Duration::from_secs(1);

pub struct Lines {
    sender: SyncSender<String>,
    written: Receiver<()>,
}

impl Lines {
    pub fn new() -> Lines {
        let (sender, lines) = sync_channel::<String>(MOST);
        let (done, written) = sync_channel(1);
        thread::spawn(move || {
            for line in lines {
                // Where it cannot be written nobody can be told of it, and the server goes on.
                let _ = print(line.as_bytes());
            }
            let _ = done.send(());
        });
        Lines { sender, written }
    }

    pub fn say(&self, words: &str) {
        let _ = self.sender.try_send(format!("{words}\n"));
    }

    pub fn end(self) {
        drop(self.sender);
        let _ = self.written.recv_timeout(LAST);
    }
}
