//! A record of a pile.

use crate::{Refusal, LONGEST_PACKET, RECORD_LENGTH};

/// Where the parts of a record are. Its first 32 bytes are the key.
mod at {
    pub const RAND: usize = 32;
    pub const REQUEST_LENGTH: usize = 64;
    pub const RESPONSE_LENGTH: usize = 68;
    pub const REQUEST: usize = 96;
    pub const RESPONSE: usize = 2096;
}

/// A record of a pile: a request, the response to it, the long-term key of the server, and the rand
/// by which the request is linked to the response before it. The first record of a pile that is to
/// be a report has a rand of zeros.
#[derive(Clone, Debug, PartialEq, Eq)]
pub struct Record {
    bytes: [u8; RECORD_LENGTH],
}

impl Record {
    /// The record of these two packets, which may be any. The only refusal is 16, where one of them
    /// has more than [`LONGEST_PACKET`] bytes.
    pub fn new(
        key: &[u8; 32],
        rand: &[u8; 32],
        request: &[u8],
        response: &[u8],
    ) -> Result<Record, Refusal> {
        if request.len() > LONGEST_PACKET || response.len() > LONGEST_PACKET {
            return Err(Refusal::Record);
        }
        let mut bytes = [0; RECORD_LENGTH];
        let mut put = |at: usize, part: &[u8]| bytes[at..at + part.len()].copy_from_slice(part);
        put(0, key);
        put(at::RAND, rand);
        put(at::REQUEST_LENGTH, &length(request));
        put(at::RESPONSE_LENGTH, &length(response));
        put(at::REQUEST, request);
        put(at::RESPONSE, response);
        Ok(Record { bytes })
    }

    /// Its bytes, as they stand in a pile.
    #[must_use]
    pub const fn bytes(&self) -> &[u8; RECORD_LENGTH] {
        &self.bytes
    }
}

/// The length of a packet as a record holds it. It is at most 2,000, so that nothing is lost.
fn length(packet: &[u8]) -> [u8; 4] {
    (packet.len() as u32).to_le_bytes()
}
