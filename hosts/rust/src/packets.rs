//! Requests and responses: reading both, and writing a request.

use crate::raw::{self, size};
use crate::{Hash, PacketRefusal, Refusal};

/// Bytes of the longest packet that is read.
pub const LONGEST_PACKET: usize = 2000;

/// Bytes of the request that [`write_request`] writes.
pub const REQUEST_LENGTH: usize = 1036;

/// What a good request says.
#[derive(Clone, Copy, Debug, PartialEq, Eq)]
pub struct Request {
    /// NONC: the nonce.
    pub nonc: [u8; 32],
    /// SRV: by which the client names the key that it expects, if it does.
    pub srv: Option<Hash>,
}

/// What a good response says. Whether it is valid is another question, and needs the request and
/// both signatures.
#[derive(Clone, Copy, Debug, PartialEq, Eq)]
pub struct Response {
    /// NONC: the nonce of the request.
    pub nonc: [u8; 32],
    /// INDX: which leaf of the tree the request is.
    pub indx: u32,
    /// MIDP: the midpoint, in seconds since 1970.
    pub midp: u64,
    /// RADI: the radius, in seconds.
    pub radi: u32,
    /// ROOT: the root of the tree.
    pub root: Hash,
}

/// Reads a request. The refusals are 1 to 8.
pub fn read_request(packet: &[u8]) -> Result<Request, PacketRefusal> {
    // SAFETY: see raw.
    let read = unsafe { raw::tb_read_request(packet.as_ptr(), size(packet.len())) };
    PacketRefusal::check(read.code, read.at)?;
    Ok(Request { nonc: read.nonc, srv: (read.with_srv != 0).then_some(read.srv) })
}

/// Reads a response. The refusals are 1 to 8.
pub fn read_response(packet: &[u8]) -> Result<Response, PacketRefusal> {
    // SAFETY: see raw.
    let read = unsafe { raw::tb_read_response(packet.as_ptr(), size(packet.len())) };
    PacketRefusal::check(read.code, read.at)?;
    let raw::tb_response { nonc, indx, midp, radi, root, .. } = read;
    Ok(Response { nonc, indx, midp, radi, root })
}

/// Writes the request with `nonce` to the server with the long-term key `key` at the front of
/// `out`, and tells how many bytes it has: [`REQUEST_LENGTH`]. What follows them stays. The only
/// refusal is 19, and then all of `out` stays.
pub fn write_request(key: &[u8; 32], nonce: &[u8; 32], out: &mut [u8]) -> Result<usize, Refusal> {
    // SAFETY: see raw.
    Ok(wrote(unsafe { raw::tb_write_request(key, nonce, out.as_mut_ptr(), size(out.len())) })?)
}

/// How many bytes were written, or why none were. They are a part of a slice, so that nothing is
/// lost where their number becomes a usize.
pub(crate) fn wrote(wrote: raw::tb_wrote) -> Result<usize, PacketRefusal> {
    PacketRefusal::check(wrote.code, wrote.at)?;
    Ok(wrote.length as usize)
}
