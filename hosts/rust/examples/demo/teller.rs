//! Says what happens, a line at a time.

use super::standard_output;
use std::sync::atomic::{AtomicBool, Ordering};
use std::time::Instant;

/// Whether something could not be said.
static UNHEARD: AtomicBool = AtomicBool::new(false);

/// Whoever has a copy may speak.
#[derive(Clone, Copy)]
pub struct Teller {
    start: Instant,
}

impl Teller {
    /// The story begins now.
    pub fn start() -> Teller {
        Teller { start: Instant::now() }
    }

    /// Says what someone does, with the seconds since the story began in front.
    pub fn says(&self, who: &str, what: impl AsRef<str>) {
        let seconds = self.start.elapsed().as_secs_f64();
        self.line(format!("{seconds:6.3}  {who:8} {}", what.as_ref()));
    }

    /// Says a line, or several. Where nobody listens any more the story goes on without him.
    pub fn line(&self, text: impl AsRef<str>) {
        let said = standard_output::print(format!("{}\n", text.as_ref()).as_bytes());
        UNHEARD.fetch_or(said.is_err(), Ordering::SeqCst);
    }

    /// Whether all that was said could be written. A story that nobody heard was not told.
    pub fn was_heard() -> bool {
        !UNHEARD.load(Ordering::SeqCst)
    }
}
