//! What is signed in a response. The check of a response verifies no signature by itself: the caller
//! asks whether both verify, of [`verify`](crate::verify) or of an Ed25519 of its own, and tells
//! [`check_response`](crate::check_response) what came out.
//!
//! Take what is verified from here, and read none of it from the packet. Code that reads a key or a
//! signature at the place where it usually is can be made to accept a forged time.

use crate::packets::wrote;
use crate::raw::{self, size};
use crate::PacketRefusal;

/// Bytes that are room for every text that is signed.
pub const LONGEST_TEXT: usize = 2000;

/// What is verified in a response.
#[derive(Clone, Copy, Debug, PartialEq, Eq)]
pub struct SignedParts {
    /// The response's signature (SIG of the outermost message): right where it is that of
    /// [`response_text`] under `pubk`.
    pub signature: [u8; 64],
    /// The delegation's signature (SIG of CERT): right where it is that of [`delegation_text`]
    /// under the server's long-term key.
    pub delegation: [u8; 64],
    /// The delegated key (PUBK of DELE).
    pub pubk: [u8; 32],
}

/// Takes out of a response what is verified. The refusals are 1 to 7.
pub fn signed_parts(packet: &[u8]) -> Result<SignedParts, PacketRefusal> {
    // SAFETY: see raw.
    let parts = unsafe { raw::tb_signed_parts(packet.as_ptr(), size(packet.len())) };
    PacketRefusal::check(parts.code, parts.at)?;
    let raw::tb_parts { signature, delegation, pubk, .. } = parts;
    Ok(SignedParts { signature, delegation, pubk })
}

/// Writes the text that the delegation signs, in the response that `packet` is, at the front of
/// `out`, and tells how many bytes it has: [`LONGEST_TEXT`] are room for any. What follows them
/// stays. The refusals are 1 to 7 and then 19, and then all of `out` stays.
pub fn delegation_text(packet: &[u8], out: &mut [u8]) -> Result<usize, PacketRefusal> {
    let (from, to) = (packet.as_ptr(), out.as_mut_ptr());
    // SAFETY: see raw.
    wrote(unsafe { raw::tb_delegation_text(from, size(packet.len()), to, size(out.len())) })
}

/// Writes the text that the response signs, in the response that `packet` is, at the front of
/// `out`, and tells how many bytes it has: [`LONGEST_TEXT`] are room for any. What follows them
/// stays. The refusals are 1 to 7 and then 19, and then all of `out` stays.
pub fn response_text(packet: &[u8], out: &mut [u8]) -> Result<usize, PacketRefusal> {
    let (from, to) = (packet.as_ptr(), out.as_mut_ptr());
    // SAFETY: see raw.
    wrote(unsafe { raw::tb_response_text(from, size(packet.len()), to, size(out.len())) })
}
