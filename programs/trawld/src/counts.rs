//! What a server counts. Each thread has counters of its own, and who tells of them adds them up: no
//! thread waits for another.

use std::sync::atomic::{AtomicU64, Ordering};

/// The refusals of a request are 1 to 8.
pub const CODES: usize = 9;

/// A counter that one thread adds to.
#[derive(Debug, Default)]
pub struct Count(AtomicU64);

impl Count {
    pub fn add(&self, more: u64) {
        // Nobody else adds to it, so that reading and then writing loses nothing.
        self.0.store(self.get().wrapping_add(more), Ordering::Relaxed);
    }

    pub fn set(&self, value: u64) {
        self.0.store(value, Ordering::Relaxed);
    }

    pub fn get(&self) -> u64 {
        self.0.load(Ordering::Relaxed)
    }
}

/// Of one thread.
#[derive(Debug, Default)]
pub struct Counts {
    /// Packets that came.
    pub asked: Count,
    /// Answers that were sent.
    pub answered: Count,
    /// Of those, the ones that are spoilt on purpose (draft 19, section 7).
    pub greased: Count,
    /// Packets that are no request, by the code.
    pub refused: [Count; CODES],
    /// Good requests to another server.
    pub elsewhere: Count,
    /// Good requests that are shorter than their answer.
    pub short: Count,
    /// Packets that were not looked at, since no time could be signed.
    pub silent: Count,
    /// Answers that the system did not take.
    pub unsent: Count,
    /// Signatures.
    pub batches: Count,
    /// Connections that were taken, are open, and were closed before their client closed them: for
    /// a new one, for their time, for their bytes, for what they sent.
    pub taken: Count,
    pub open: Count,
    pub crowded: Count,
    pub late: Count,
    pub long: Count,
    pub broken: Count,
}

/// The sum over some threads, at one moment.
#[derive(Clone, Copy, Debug, Default, PartialEq, Eq)]
pub struct Sum {
    pub asked: u64,
    pub answered: u64,
    pub greased: u64,
    pub refused: [u64; CODES],
    pub elsewhere: u64,
    pub short: u64,
    pub silent: u64,
    pub unsent: u64,
    pub batches: u64,
    pub taken: u64,
    pub open: u64,
    pub crowded: u64,
    pub late: u64,
    pub long: u64,
    pub broken: u64,
    /// Packets that the system dropped before they could be received.
    pub dropped: u64,
}

impl Sum {
    pub fn add(&mut self, counts: &Counts) {
        self.asked += counts.asked.get();
        self.answered += counts.answered.get();
        self.greased += counts.greased.get();
        for (sum, count) in self.refused.iter_mut().zip(&counts.refused) {
            *sum += count.get();
        }
        self.elsewhere += counts.elsewhere.get();
        self.short += counts.short.get();
        self.silent += counts.silent.get();
        self.unsent += counts.unsent.get();
        self.batches += counts.batches.get();
        self.taken += counts.taken.get();
        self.open += counts.open.get();
        self.crowded += counts.crowded.get();
        self.late += counts.late.get();
        self.long += counts.long.get();
        self.broken += counts.broken.get();
    }
}
