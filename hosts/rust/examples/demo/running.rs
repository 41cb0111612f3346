//! Threads that serve until they are told to end.

use std::io;
use std::net::UdpSocket;
use std::sync::atomic::{AtomicBool, Ordering};
use std::sync::Arc;
use std::thread::{self, JoinHandle};
use std::time::Duration;

/// How long a thread waits for a packet before it looks whether it is to end.
const LOOK: Duration = Duration::from_millis(20);

/// A thread that does one thing over and over. Where this is dropped it ends.
pub struct Running {
    end: Arc<AtomicBool>,
    thread: Option<JoinHandle<()>>,
}

impl Running {
    /// Starts it. A turn must not take long: it waits for packets by [`socket`] alone.
    pub fn start(mut turn: impl FnMut() + Send + 'static) -> Running {
        let end = Arc::new(AtomicBool::new(false));
        let told = Arc::clone(&end);
        let thread = thread::spawn(move || {
            while !told.load(Ordering::Relaxed) {
                turn();
            }
        });
        Running { end, thread: Some(thread) }
    }
}

impl Drop for Running {
    fn drop(&mut self) {
        self.end.store(true, Ordering::Relaxed);
        if let Some(thread) = self.thread.take() {
            // What a thread panicked with has been printed.
            let _ = thread.join();
        }
    }
}

/// A socket at a free port of this machine's own network, for a turn to wait at.
pub fn socket() -> io::Result<UdpSocket> {
    let socket = UdpSocket::bind("127.0.0.1:0")?;
    socket.set_read_timeout(Some(LOOK))?;
    Ok(socket)
}
