//! The two texts that are signed: a context string, with a zero byte to end it, and the value of a
//! tag (draft 19, sections 5.2.1 and 5.2.6).

use crate::refusal::Refusal;
use crate::response;

/// In front of DELE, under the long-term key's signature.
pub const DELEGATION: &[u8] = b"RoughTime v1 delegation signature\0";

/// In front of SREP, under the delegated key's signature.
pub const RESPONSE: &[u8] = b"RoughTime v1 response signature\0";

/// What the signature in CERT was made of, in the response that `packet` is.
pub fn delegation(packet: &[u8]) -> Result<Vec<u8>, Refusal> {
    Ok([DELEGATION, response::shaped(packet)?.dele.bytes].concat())
}

/// What the signature in the outermost message was made of, in the response that `packet` is.
pub fn response(packet: &[u8]) -> Result<Vec<u8>, Refusal> {
    Ok([RESPONSE, response::shaped(packet)?.srep.bytes].concat())
}

#[cfg(test)]
mod tests {
    use super::*;
    use crate::message;
    use crate::pieces::Pieces;

    #[test]
    fn the_context_strings_have_their_zero_byte() {
        assert_eq!((DELEGATION.len(), RESPONSE.len()), (34, 32));
    }

    #[test]
    fn the_texts_are_the_context_and_the_value() {
        let pieces = Pieces::good();
        let (dele, srep) = (message::encode(&pieces.dele), message::encode(&pieces.srep));
        let packet = pieces.packet();
        assert_eq!(delegation(&packet).unwrap(), [DELEGATION, &dele].concat());
        assert_eq!(response(&packet).unwrap(), [RESPONSE, &srep].concat());
    }

    /// A signature is checked before TYPE and the version mean anything, so they may be any here.
    #[test]
    fn a_wrong_type_stops_no_text_and_a_wrong_shape_does() {
        let mut pieces = Pieces::good();
        pieces.outer[2].1 = vec![9; 4];
        assert!(delegation(&pieces.clone().packet()).is_ok());
        pieces.dele[0].1 = vec![];
        let packet = pieces.packet();
        assert_eq!(
            (delegation(&packet), response(&packet)),
            (Err(Refusal::Value), Err(Refusal::Value))
        );
    }
}
