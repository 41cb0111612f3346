//! Whether a signature verifies: Ed25519 of RFC 8032, section 5.1.7, with S below the group order and
//! the group equation without the cofactor.

use crate::raw::{self, size};

/// Whether `signature`, of `text`, verifies under `key`. A key that is not 32 bytes, or a signature
/// that is not 64, is a no.
///
/// It is not of one time for all inputs, and is given nothing that is secret.
#[must_use]
pub fn verify(key: &[u8], text: &[u8], signature: &[u8]) -> bool {
    let (keys, texts, signatures) = (key.as_ptr(), text.as_ptr(), signature.as_ptr());
    // SAFETY: see raw.
    unsafe {
        raw::tb_verify(
            keys,
            size(key.len()),
            texts,
            size(text.len()),
            signatures,
            size(signature.len()),
        )
    }
}

/// The same of the text that is `context` and then `value`, so that no buffer is needed for it. A
/// no, too, where the two come to more than 2^64 - 65 bytes.
#[must_use]
pub fn verify_parts(key: &[u8], context: &[u8], value: &[u8], signature: &[u8]) -> bool {
    // SAFETY: see raw.
    unsafe {
        raw::tb_verify_parts(
            key.as_ptr(),
            size(key.len()),
            context.as_ptr(),
            size(context.len()),
            value.as_ptr(),
            size(value.len()),
            signature.as_ptr(),
            size(signature.len()),
        )
    }
}
