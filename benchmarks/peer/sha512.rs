//! SHA-512 by RustCrypto's sha2, in the place of the independent implementation's own.
//!
//! It stands under the same names as independent/src/sha512.rs, so that the rest of that
//! implementation is compiled over it unchanged.

use sha2::Digest;

/// A message that is handed over in pieces.
#[derive(Clone, Default)]
pub struct Sha512(sha2::Sha512);

impl Sha512 {
    /// The empty message.
    pub fn new() -> Self {
        Self::default()
    }

    /// Appends `bytes` to the message.
    pub fn update(&mut self, bytes: &[u8]) {
        self.0.update(bytes);
    }

    /// The digest.
    pub fn finish(self) -> [u8; 64] {
        self.0.finalize().into()
    }
}

/// The SHA-512 digest of `message`.
pub fn sha512(message: &[u8]) -> [u8; 64] {
    sha2::Sha512::digest(message).into()
}
