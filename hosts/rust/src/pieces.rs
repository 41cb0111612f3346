//! A hash whose message comes in pieces.

use crate::raw::{self, size, tb_running};
use crate::{Digest, Hash, Refusal};
#[cfg(feature = "std")]
use std::io;

/// A hash that takes its message in pieces of any length, with no buffer for the whole. However
/// they are cut, the digest is that of all of them one after the other.
///
/// Finishing only reads the state, so that it can be done again, and more pieces can follow.
///
/// ```
/// let mut hash = trawlbeacon::Sha512::new();
/// hash.update(b"a")?;
/// hash.update(b"")?;
/// hash.update(b"bc")?;
/// assert_eq!(hash.finish(), trawlbeacon::sha512(b"abc"));
///
/// // The leaf of a request that came in two reads.
/// let packet = [7; 1036];
/// let mut leaf = trawlbeacon::Sha512::leaf();
/// std::io::copy(&mut &packet[..500], &mut leaf)?;
/// std::io::copy(&mut &packet[500..], &mut leaf)?;
/// assert_eq!(leaf.finish_hash(), trawlbeacon::leaf(&packet));
/// # Ok::<(), Box<dyn std::error::Error>>(())
/// ```
#[derive(Clone, Debug, PartialEq, Eq)]
pub struct Sha512 {
    state: tb_running,
}

impl Sha512 {
    /// The hash of a message, before any piece of it.
    #[must_use]
    pub fn new() -> Self {
        let mut state = tb_running { h: [0; 8], rest: [0; 128], count: 0 };
        // SAFETY: see raw.
        unsafe {
            raw::tb_sha512_start_fields(&mut state.h, &mut state.rest, &mut state.count);
        }
        Sha512 { state }
    }

    /// The leaf of a request packet, H(0x00, packet), before any piece of the packet:
    /// [`finish_hash`](Sha512::finish_hash) gives what [`leaf`](crate::leaf) gives of the whole.
    #[must_use]
    pub fn leaf() -> Self {
        let mut state = tb_running { h: [0; 8], rest: [0; 128], count: 0 };
        // SAFETY: see raw.
        unsafe {
            raw::tb_leaf_start_fields(&mut state.h, &mut state.rest, &mut state.count);
        }
        Sha512 { state }
    }

    /// Takes a piece.
    ///
    /// # Errors
    ///
    /// [`Refusal::Pieces`] (30) where all that was taken, the 0x00 of a leaf too, would come to more
    /// than 2^64 - 1 bytes. The state stays as it was then, so that the digest is that of the pieces
    /// before.
    pub fn update(&mut self, piece: &[u8]) -> Result<(), Refusal> {
        let state = &mut self.state;
        // SAFETY: see raw.
        Refusal::check(unsafe {
            raw::tb_sha512_take_fields(
                &mut state.h,
                &mut state.rest,
                &mut state.count,
                piece.as_ptr(),
                size(piece.len()),
            )
        })
    }

    /// The SHA-512 digest of what was taken so far.
    #[must_use]
    pub fn finish(&self) -> Digest {
        let mut out = [0; 64];
        let state = &self.state;
        // SAFETY: see raw.
        unsafe {
            raw::tb_sha512_finish_fields(&state.h, &state.rest, state.count, &mut out);
        }
        out
    }

    /// H of what was taken so far. Of one that began as [`leaf`](Sha512::leaf) that is the leaf of
    /// the packet; where the pieces are a response and then the rand of the next request, it is what
    /// [`link`](crate::link) gives.
    #[must_use]
    pub fn finish_hash(&self) -> Hash {
        let mut out = [0; 32];
        let state = &self.state;
        // SAFETY: see raw.
        unsafe {
            raw::tb_hash_finish_fields(&state.h, &state.rest, state.count, &mut out);
        }
        out
    }

    /// The state as it is, to be kept and gone on with.
    #[must_use]
    pub fn state(&self) -> tb_running {
        self.state
    }
}

impl Default for Sha512 {
    fn default() -> Self {
        Sha512::new()
    }
}

/// Goes on with a state. One that no start led to does no harm, and its digest means nothing.
impl From<tb_running> for Sha512 {
    fn from(state: tb_running) -> Self {
        Sha512 { state }
    }
}

/// Each write is a piece.
#[cfg(feature = "std")]
impl io::Write for Sha512 {
    fn write(&mut self, piece: &[u8]) -> io::Result<usize> {
        self.update(piece).map_err(|refusal| io::Error::new(io::ErrorKind::Other, refusal))?;
        Ok(piece.len())
    }

    fn flush(&mut self) -> io::Result<()> {
        Ok(())
    }
}
