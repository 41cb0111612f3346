//! Writing: the request that we send, and how anything goes into a buffer that a caller lends.

use crate::message;
use crate::packet;
use crate::refusal::Refusal;
use crate::request::TYPE_OF_REQUEST;
use crate::tag::{NONC, SRV, TYPE, VER, ZZZZ};
use crate::{hash, value, VERSION};

/// Zeros that bring the message to 1,024 bytes, below which a server need not answer (draft 19,
/// section 5.1).
const PADDING: usize = 912;

/// The request with this nonce to the server with this long-term key.
pub fn request(key: &[u8; 32], nonce: &[u8; 32]) -> Vec<u8> {
    padded_request(key, nonce, PADDING)
}

/// The same with another number of zeros, for it to be shorter or longer. A server may leave a
/// shorter one unanswered.
pub fn padded_request(key: &[u8; 32], nonce: &[u8; 32], padding: usize) -> Vec<u8> {
    request_of(&[VERSION], key, nonce, padding)
}

/// The same from a client that knows these versions.
pub fn request_of(versions: &[u32], key: &[u8; 32], nonce: &[u8; 32], padding: usize) -> Vec<u8> {
    let pairs: [(_, &[u8]); 5] = [
        (VER, &value::list(versions)),
        (SRV, &hash::srv_value(key)),
        (NONC, nonce),
        (TYPE, &TYPE_OF_REQUEST.to_le_bytes()),
        (ZZZZ, &vec![0; padding]),
    ];
    packet::encode(&message::encode(&pairs))
}

/// Puts `bytes` at the front of `out` and tells how many they are. What follows them stays, and all
/// of it where they do not fit.
pub fn put(bytes: &[u8], out: &mut [u8]) -> Result<usize, Refusal> {
    let front = out.get_mut(..bytes.len()).ok_or(Refusal::BufferTooShort)?;
    front.copy_from_slice(bytes);
    Ok(bytes.len())
}

#[cfg(test)]
mod tests {
    use super::*;
    use crate::request;

    #[test]
    fn the_request_is_laid_out_as_the_document_says() {
        let written = request(&[1; 32], &[2; 32]);
        assert_eq!(written.len(), 1036);
        assert_eq!(written[..12], *b"ROUGHTIM\x00\x04\x00\x00");
        let words: Vec<u32> = written[12..52]
            .chunks(4)
            .map(|word| u32::from_le_bytes(word.try_into().unwrap()))
            .collect();
        assert_eq!(words, [5, 4, 36, 68, 72, VER, SRV, NONC, TYPE, ZZZZ]);
        assert_eq!(written[52..56], [1, 0, 0, 0]);
        assert_eq!(written[56..88], hash::srv_value(&[1; 32]));
        assert_eq!(written[88..120], [2; 32]);
        assert!(written[120..].iter().all(|byte| *byte == 0));
    }

    #[test]
    fn what_was_written_is_read_back() {
        let read = request::read(&request(&[1; 32], &[2; 32])).unwrap();
        assert_eq!((read.versions, read.nonc), (vec![VERSION], [2; 32]));
        assert_eq!(read.srv, Some(hash::srv_value(&[1; 32])));
    }

    #[test]
    fn a_buffer_takes_what_fits_and_keeps_the_rest() {
        let written = request(&[1; 32], &[2; 32]);
        let mut out = [0xee; 1040];
        assert_eq!(put(&written, &mut out[..1035]), Err(Refusal::BufferTooShort));
        assert_eq!(out, [0xee; 1040]);
        assert_eq!(put(&written, &mut out[..1036]), Ok(1036));
        assert_eq!((&out[..1036], &out[1036..]), (&written[..], &[0xee; 4][..]));
        assert_eq!(put(&[], &mut []), Ok(0));
    }
}
