//! Packets one after the other, as they come over TCP (draft 19, section 5): each says its length in
//! front. What else a packet says the library reads.

use trawlbeacon::LONGEST_PACKET;

const MARK: &[u8; 8] = b"ROUGHTIM";

/// Bytes of the mark and of the length behind it.
const FRONT: usize = 12;

#[derive(Clone, Copy, Debug, PartialEq, Eq)]
pub enum Frame {
    /// More must come before anything can be said.
    More,
    /// The first so many bytes are a packet.
    Whole(usize),
    /// No packet begins so, or none that is read, and what comes after it cannot be found.
    Bad,
}

pub fn frame(bytes: &[u8]) -> Frame {
    let seen = bytes.len().min(MARK.len());
    if bytes[..seen] != MARK[..seen] {
        return Frame::Bad;
    }
    let Some(length) = bytes.get(MARK.len()..FRONT) else { return Frame::More };
    let length = u32::from_le_bytes(length.try_into().expect("they are four"));
    match usize::try_from(length).ok().and_then(|length| length.checked_add(FRONT)) {
        Some(whole) if whole <= LONGEST_PACKET => {
            if bytes.len() < whole {
                Frame::More
            } else {
                Frame::Whole(whole)
            }
        }
        _ => Frame::Bad,
    }
}

#[cfg(test)]
mod tests {
    use super::*;

    #[test]
    fn packets_say_their_length() {
        let packet = [&MARK[..], &4u32.to_le_bytes(), b"more", b"next"].concat();
        for end in 0..16 {
            assert_eq!(frame(&packet[..end]), Frame::More);
        }
        for end in 16..=packet.len() {
            assert_eq!(frame(&packet[..end]), Frame::Whole(16));
        }
        assert_eq!(frame(b"ROUGHTIX"), Frame::Bad);
        assert_eq!(frame(b"r"), Frame::Bad);
        let long = |length: u32| frame(&[&MARK[..], &length.to_le_bytes()].concat());
        assert_eq!(long(1988), Frame::More);
        assert_eq!([long(1989), long(u32::MAX)], [Frame::Bad, Frame::Bad]);
    }
}
