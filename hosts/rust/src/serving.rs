//! What a server writes: DELE and CERT, SREP, and the response to each request of a batch. None of
//! these functions signs: a [`SigningKey`](crate::SigningKey) does, or an Ed25519 of the caller's.

use crate::packets::wrote;
use crate::raw::{self, size};
use crate::{Hash, PacketRefusal, Refusal};

/// Bytes in front of DELE where it is signed.
pub const DELEGATION_CONTEXT: &[u8; 34] = b"RoughTime v1 delegation signature\0";

/// Bytes in front of SREP where it is signed.
pub const RESPONSE_CONTEXT: &[u8; 32] = b"RoughTime v1 response signature\0";

/// Bytes of the DELE that [`write_dele`] writes.
pub const DELE_LENGTH: usize = 72;

/// Bytes of the CERT that [`write_cert`] writes.
pub const CERT_LENGTH: usize = 152;

/// Bytes of the SREP that [`write_srep`] writes.
pub const SREP_LENGTH: usize = 92;

/// Bytes of the response that [`write_response`] writes with so many bytes of siblings and of CERT.
#[must_use]
pub const fn response_length(path: usize, cert: usize) -> usize {
    264 + path + cert
}

/// What a response is made of.
#[derive(Clone, Copy, Debug, PartialEq, Eq)]
pub struct Reply<'a> {
    /// The request packet.
    pub request: &'a [u8],
    /// INDX: the place of the request's leaf in the batch.
    pub indx: u32,
    /// ROOT: the root of the batch.
    pub root: &'a Hash,
    /// PATH: the siblings of the leaf, one after the other.
    pub path: &'a [u8],
    /// MIDP: the time, in seconds since 1970.
    pub midp: u64,
    /// RADI: how far the true time may be from that, in seconds; not 0.
    pub radi: u32,
    /// The value of CERT.
    pub cert: &'a [u8],
    /// The delegated key's signature over what [`write_srep`] writes for the same root, time and
    /// radius.
    pub signature: &'a [u8; 64],
}

/// Writes DELE at the front of `out`, for the delegated public key and the first and the last second
/// at which it may sign, and tells how many bytes it has: [`DELE_LENGTH`]. What follows them stays.
/// The only refusal is 19, and then all of `out` stays.
pub fn write_dele(pubk: &[u8; 32], mint: u64, maxt: u64, out: &mut [u8]) -> Result<usize, Refusal> {
    // SAFETY: see raw.
    Ok(wrote(unsafe { raw::tb_write_dele(pubk, mint, maxt, out.as_mut_ptr(), size(out.len())) })?)
}

/// Writes CERT at the front of `out`, of the same DELE and the long-term key's signature over it
/// behind [`DELEGATION_CONTEXT`], and tells how many bytes it has: [`CERT_LENGTH`]. What follows
/// them stays. The only refusal is 19, and then all of `out` stays.
pub fn write_cert(
    pubk: &[u8; 32],
    mint: u64,
    maxt: u64,
    signature: &[u8; 64],
    out: &mut [u8],
) -> Result<usize, Refusal> {
    let to = out.as_mut_ptr();
    // SAFETY: see raw.
    Ok(wrote(unsafe { raw::tb_write_cert(pubk, mint, maxt, signature, to, size(out.len())) })?)
}

/// Writes SREP at the front of `out`, with VER and VERS {1}, for the root of a batch, a time and its
/// radius, and tells how many bytes it has: [`SREP_LENGTH`]. What follows them stays. The refusals
/// are 7, where `radi` is 0, and 19, and then all of `out` stays.
pub fn write_srep(root: &Hash, midp: u64, radi: u32, out: &mut [u8]) -> Result<usize, Refusal> {
    // SAFETY: see raw.
    Ok(wrote(unsafe { raw::tb_write_srep(root, midp, radi, out.as_mut_ptr(), size(out.len())) })?)
}

/// Writes a whole response at the front of `out`, and tells how many bytes it has:
/// [`response_length`] of its path and CERT. What follows them stays. The refusals are 14; 7, where
/// RADI is 0; 4 to 7 of CERT, then of its DELE; 10; 11; 23; 19; and then all of `out` stays. A place
/// is one in the value of CERT, counted from its first byte; a RADI of 0 has none.
///
/// Whether the request is meant for this server is not looked at: one that names another, by an SRV
/// that is not [`srv_value`](crate::srv_value) of the long-term key, a server must ignore (draft 19,
/// 5.2). [`read_request`](crate::read_request) has its SRV.
pub fn write_response(reply: &Reply, out: &mut [u8]) -> Result<usize, PacketRefusal> {
    let Reply { request, indx, root, path, midp, radi, cert, signature } = *reply;
    // SAFETY: see raw.
    let told = wrote(unsafe {
        raw::tb_write_response(
            request.as_ptr(),
            size(request.len()),
            indx,
            root,
            path.as_ptr(),
            size(path.len()),
            midp,
            radi,
            cert.as_ptr(),
            size(cert.len()),
            signature,
            out.as_mut_ptr(),
            size(out.len()),
        )
    });
    told.map_err(of_cert)
}

/// A refusal whose place is one in the value of CERT, or 0 beside the 7 for a RADI of 0. No value of
/// CERT starts at its first byte, so that 0 beside 7 is no place.
pub(crate) fn of_cert(why: PacketRefusal) -> PacketRefusal {
    let no_place = why.refusal == Refusal::Value && why.at == Some(0);
    if no_place {
        why.refusal.into()
    } else {
        why
    }
}
