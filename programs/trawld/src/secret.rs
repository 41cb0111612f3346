//! A seed in memory, and where it comes from.

use crate::stop::{failed, Stop};
use std::os::raw::{c_uint, c_void};
use std::ptr;
use std::sync::atomic::{compiler_fence, Ordering};
use trawlbeacon::SigningKey;

/// 32 bytes that nobody else may have. They are overwritten where it is dropped, and `{:?}` prints
/// none of them.
pub struct Secret([u8; 32]);

extern "C" {
    fn getrandom(buffer: *mut c_void, length: usize, flags: c_uint) -> isize;
}

impl Secret {
    pub fn new(bytes: [u8; 32]) -> Secret {
        Secret(bytes)
    }

    /// Bytes of the system's random source, which waits until it has gathered enough since the
    /// machine was started.
    pub fn random() -> Result<Secret, Stop> {
        let mut secret = Secret([0; 32]);
        let buffer = secret.0.as_mut_ptr().cast();
        // SAFETY: it is lent for the call, with its length.
        match unsafe { getrandom(buffer, 32, 0) } {
            32 => Ok(secret),
            _ => failed("the system gave no random bytes; a kernel of 3.17 or later has getrandom"),
        }
    }

    pub fn bytes(&self) -> &[u8; 32] {
        &self.0
    }

    pub fn signing_key(&self) -> SigningKey {
        SigningKey::new(&self.0)
    }
}

impl std::fmt::Debug for Secret {
    fn fmt(&self, to: &mut std::fmt::Formatter<'_>) -> std::fmt::Result {
        to.write_str("Secret")
    }
}

impl Drop for Secret {
    fn drop(&mut self) {
        // SAFETY: the bytes are ours. A volatile write is one that the compiler may not leave out.
        unsafe { ptr::write_volatile(&mut self.0, [0; 32]) };
        compiler_fence(Ordering::SeqCst);
    }
}
