//! Packets: a message behind a mark and its length (draft 19, section 5).

use crate::refusal::Refusal;

/// What every packet starts with.
pub const MARK: &[u8; 8] = b"ROUGHTIM";

/// Bytes in front of the message: the mark, and the length as a u32.
pub const HEADER: usize = MARK.len() + 4;

/// The most bytes of a packet, its header counted. The draft sets no limit; this is a house rule.
pub const MOST: usize = 2000;

/// The message in `packet`.
pub fn message(packet: &[u8]) -> Result<&[u8], Refusal> {
    if !(HEADER..=MOST).contains(&packet.len()) {
        return Err(Refusal::PacketSize);
    }
    let (header, message) = packet.split_at(HEADER);
    let (mark, length) = header.split_at(MARK.len());
    if mark != MARK {
        return Err(Refusal::Mark);
    }
    let length = u32::from_le_bytes(length.try_into().expect("four bytes follow the mark"));
    if u32::try_from(message.len()) != Ok(length) {
        return Err(Refusal::PacketLength);
    }
    Ok(message)
}

/// The packet of `message`.
pub fn encode(message: &[u8]) -> Vec<u8> {
    [MARK, &(message.len() as u32).to_le_bytes()[..], message].concat()
}

#[cfg(test)]
mod tests {
    use super::*;

    #[test]
    fn a_packet_has_12_to_2000_bytes() {
        for length in [0, 1, 11, 2001, 4096] {
            assert_eq!(message(&vec![0; length]), Err(Refusal::PacketSize), "{length} bytes");
        }
        for length in [0, 1, 4, 1988] {
            let inside = vec![7; length];
            assert_eq!(message(&encode(&inside)), Ok(&inside[..]), "{length} bytes of message");
        }
        assert_eq!(message(&encode(&[7; 1989])), Err(Refusal::PacketSize));
    }

    #[test]
    fn every_byte_of_the_mark_counts() {
        for at in 0..MARK.len() {
            let mut packet = encode(&[1, 2, 3, 4]);
            packet[at] ^= 0x20;
            // The length is wrong too, and comes later.
            packet.push(0);
            assert_eq!(message(&packet), Err(Refusal::Mark), "byte {at}");
        }
    }

    #[test]
    fn the_length_is_that_of_the_message_alone() {
        let packet = encode(&[9; 16]);
        assert_eq!(packet[8..12], [16, 0, 0, 0]);
        assert_eq!(message(&packet[..27]), Err(Refusal::PacketLength));
        let mut whole_packet = packet.clone();
        whole_packet[8] = 28;
        assert_eq!(message(&whole_packet), Err(Refusal::PacketLength));
        let mut high_byte = packet;
        high_byte[11] = 1;
        assert_eq!(message(&high_byte), Err(Refusal::PacketLength));
    }
}
