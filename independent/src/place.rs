//! Where a packet is bad: the byte that a refusal with one of the codes 4 to 7 names, counted from
//! the first byte of the packet, or of the value of CERT where that is judged by itself.
//!
//! It is looked for by itself, apart from the readers, which share no more than a packet's own
//! header with it: a message is walked word by word, and the first thing that is wrong is told by
//! where it stands.

use crate::packet;
use crate::tag::{
    Tag, CERT, DELE, INDX, MAXT, MIDP, MINT, NONC, PATH, PUBK, RADI, ROOT, SIG, SREP, SRV, TYPE,
    VER, VERS,
};

/// The five messages, by what they must hold.
#[derive(Clone, Copy, Debug, PartialEq, Eq, PartialOrd, Ord)]
pub enum Kind {
    /// A request.
    Request,
    /// The outermost message of a response.
    Root,
    /// Its SREP.
    Srep,
    /// Its CERT.
    Cert,
    /// The DELE in CERT.
    Dele,
}

/// What is wrong there.
#[derive(Clone, Copy, Debug, PartialEq, Eq, PartialOrd, Ord)]
pub enum Cause {
    /// The message's length: the place is its start.
    Length,
    /// N is not 1 to 32: the place is N's word.
    Count,
    /// The header is longer than the message: the place is N's word.
    Header,
    /// An offset that is no multiple of 4: the place is its word, where it is the first wrong one.
    Uneven,
    /// An offset below the one before it: the same.
    Falling,
    /// An offset that leaves the values: the same.
    Outside,
    /// A tag that is not above the one before it: the place is its word.
    Order,
    /// An absent tag: the place is the start of the message that lacks it.
    Absent,
    /// A value's length: the place is the start of the wrong value with the smallest tag.
    Size,
    /// A list of versions that does not rise: the same.
    List,
    /// RADI is 0: the same.
    Radius,
}

/// A place, the message in which it stands, and what is wrong there.
#[derive(Clone, Copy, Debug, PartialEq, Eq)]
pub struct Place {
    /// The byte, counted from the first one of the packet.
    pub at: usize,
    /// The message.
    pub kind: Kind,
    /// What is wrong.
    pub cause: Cause,
}

impl Kind {
    fn needed(self) -> &'static [Tag] {
        match self {
            Kind::Request => &[VER, NONC, TYPE],
            Kind::Root => &[SIG, NONC, TYPE, PATH, SREP, CERT, INDX],
            Kind::Srep => &[VER, RADI, MIDP, VERS, ROOT],
            Kind::Cert => &[SIG, DELE],
            Kind::Dele => &[PUBK, MINT, MAXT],
        }
    }

    /// What is wrong with the value of this tag. What is no tag of the message is ignored.
    fn wrong(self, tag: Tag, bytes: &[u8]) -> Option<Cause> {
        let size = bytes.len();
        let right = match (self, tag) {
            (Kind::Request, VER) | (Kind::Srep, VERS) => size % 4 == 0 && (4..=128).contains(&size),
            (Kind::Root, PATH) => size % 32 == 0 && size <= 1024,
            (Kind::Request, SRV | NONC) | (Kind::Root, NONC) => size == 32,
            (Kind::Srep, ROOT) | (Kind::Dele, PUBK) => size == 32,
            (Kind::Request, TYPE) | (Kind::Root, TYPE | INDX) => size == 4,
            (Kind::Srep, VER | RADI) => size == 4,
            (Kind::Root | Kind::Cert, SIG) => size == 64,
            (Kind::Srep, MIDP) | (Kind::Dele, MINT | MAXT) => size == 8,
            _ => true,
        };
        match (self, tag) {
            _ if !right => Some(Cause::Size),
            (Kind::Request, VER) | (Kind::Srep, VERS) if !rises(bytes) => Some(Cause::List),
            (Kind::Srep, RADI) if bytes == [0; 4] => Some(Cause::Radius),
            _ => None,
        }
    }
}

/// Whether each number of 4 bytes is above the one before it.
fn rises(bytes: &[u8]) -> bool {
    let numbers: Vec<u32> = bytes
        .chunks_exact(4)
        .map(|word| u32::from_le_bytes(word.try_into().expect("four bytes")))
        .collect();
    numbers.windows(2).all(|pair| pair[0] < pair[1])
}

/// A message within a packet.
#[derive(Clone, Copy)]
struct Part<'a> {
    packet: &'a [u8],
    start: usize,
    end: usize,
    kind: Kind,
}

impl<'a> Part<'a> {
    fn word(self, index: usize) -> usize {
        let at = self.start + 4 * index;
        u32::from_le_bytes(self.packet[at..at + 4].try_into().expect("four bytes")) as usize
    }

    /// The byte at which word `index` of the header stands.
    fn place(self, index: usize, cause: Cause) -> Place {
        Place { at: self.start + 4 * index, kind: self.kind, cause }
    }

    /// N, where the length, N and the header's length are right.
    fn count(self) -> Result<usize, Place> {
        let length = self.end - self.start;
        if length < 4 || length % 4 != 0 {
            return Err(self.place(0, Cause::Length));
        }
        let count = self.word(0);
        if !(1..=32).contains(&count) {
            return Err(self.place(0, Cause::Count));
        }
        if 8 * count > length {
            return Err(self.place(0, Cause::Header));
        }
        Ok(count)
    }

    /// Where the values start, counted from the first of them, and where the last one ends.
    fn starts(self, count: usize) -> Result<Vec<usize>, Place> {
        let section = self.end - self.start - 8 * count;
        let mut starts = vec![0];
        for index in 1..count {
            let offset = self.word(index);
            if offset % 4 != 0 {
                return Err(self.place(index, Cause::Uneven));
            }
            if offset < starts[index - 1] {
                return Err(self.place(index, Cause::Falling));
            }
            if offset > section {
                return Err(self.place(index, Cause::Outside));
            }
            starts.push(offset);
        }
        starts.push(section);
        Ok(starts)
    }

    /// The first thing that is wrong, or the tags with the bytes from and to which their values go.
    fn walk(self) -> Result<Vec<(Tag, usize, usize)>, Place> {
        let count = self.count()?;
        let starts = self.starts(count)?;
        for index in count + 1..2 * count {
            if self.word(index) <= self.word(index - 1) {
                return Err(self.place(index, Cause::Order));
            }
        }
        let values = self.start + 8 * count;
        let found: Vec<(Tag, usize, usize)> = (0..count)
            .map(|k| (self.word(count + k) as Tag, values + starts[k], values + starts[k + 1]))
            .collect();
        if self.kind.needed().iter().any(|tag| found.iter().all(|pair| pair.0 != *tag)) {
            return Err(self.place(0, Cause::Absent));
        }
        // The tags rise, so that the first wrong value is the one with the smallest tag.
        for (tag, from, to) in &found {
            if let Some(cause) = self.kind.wrong(*tag, &self.packet[*from..*to]) {
                return Err(Place { at: *from, kind: self.kind, cause });
            }
        }
        Ok(found)
    }

    /// The message that is the value of a tag of this one.
    fn within(self, found: &[(Tag, usize, usize)], tag: Tag, kind: Kind) -> Part<'a> {
        let pair = found.iter().find(|pair| pair.0 == tag).expect("the tag is needed");
        Part { packet: self.packet, start: pair.1, end: pair.2, kind }
    }
}

/// The outermost message of a packet that has none of the codes 1 to 3.
fn outermost(packet: &[u8], kind: Kind) -> Option<Part<'_>> {
    packet::message(packet).ok()?;
    Some(Part { packet, start: packet::HEADER, end: packet.len(), kind })
}

/// Where a request is bad, if it is refused with one of the codes 4 to 7.
pub fn in_request(packet: &[u8]) -> Option<Place> {
    outermost(packet, Kind::Request)?.walk().err()
}

/// Where a response is bad, if it is refused with one of the codes 4 to 7.
pub fn in_response(packet: &[u8]) -> Option<Place> {
    let root = outermost(packet, Kind::Root)?;
    let messages = || {
        let outer = root.walk()?;
        root.within(&outer, SREP, Kind::Srep).walk()?;
        let cert = root.within(&outer, CERT, Kind::Cert);
        let inside = cert.walk()?;
        cert.within(&inside, DELE, Kind::Dele).walk()
    };
    messages().err()
}

/// Where the value of CERT is bad, itself or its DELE, counted from its own first byte.
pub fn in_cert(value: &[u8]) -> Option<Place> {
    let cert = Part { packet: value, start: 0, end: value.len(), kind: Kind::Cert };
    let messages = || {
        let inside = cert.walk()?;
        cert.within(&inside, DELE, Kind::Dele).walk()
    };
    messages().err()
}

#[cfg(test)]
mod tests {
    use super::*;
    use crate::message;
    use crate::pieces::{put, Pieces};

    fn told(place: Option<Place>) -> Option<(usize, Kind, Cause)> {
        place.map(|place| (place.at, place.kind, place.cause))
    }

    fn framed(words: &[u32]) -> Option<(usize, Kind, Cause)> {
        let bytes: Vec<u8> = words.iter().flat_map(|word| word.to_le_bytes()).collect();
        told(in_request(&packet::encode(&bytes)))
    }

    #[test]
    fn the_header_is_told_by_its_first_wrong_word() {
        assert_eq!(framed(&[]), Some((12, Kind::Request, Cause::Length)));
        assert_eq!(told(in_request(&packet::encode(&[1; 5]))).unwrap().0, 12);
        assert_eq!(framed(&[0]), Some((12, Kind::Request, Cause::Count)));
        assert_eq!(framed(&[3, 0, 0, 1, 2]), Some((12, Kind::Request, Cause::Header)));
        // The second offset falls from 4 to 0, the third leaves the section: the second is told.
        assert_eq!(
            framed(&[4, 4, 0, 99, 1, 2, 3, 4, 0]),
            Some((20, Kind::Request, Cause::Falling))
        );
        assert_eq!(framed(&[3, 0, 0, 1, 2, 2]), Some((32, Kind::Request, Cause::Order)));
        assert_eq!(framed(&[2, 0, 1, 2]), Some((12, Kind::Request, Cause::Absent)));
    }

    #[test]
    fn a_good_packet_has_no_place() {
        assert_eq!(in_response(&Pieces::good().packet()), None);
        assert_eq!(in_request(b"ROUGHTIM"), None);
    }

    /// A value that is told starts where its bytes stand in the packet.
    #[test]
    fn values_are_told_by_their_start() {
        let mut pieces = Pieces::good();
        put(&mut pieces.srep, RADI, &[0; 4]);
        put(&mut pieces.srep, ROOT, &[]);
        put(&mut pieces.dele, PUBK, &[0xee; 28]);
        let packet = pieces.clone().packet();
        let place = in_response(&packet).unwrap();
        assert_eq!((place.kind, place.cause), (Kind::Srep, Cause::Radius));
        assert_eq!(packet[place.at..place.at + 4], [0; 4]);
        put(&mut pieces.srep, RADI, &[5, 0, 0, 0]);
        put(&mut pieces.srep, ROOT, &[0x11; 32]);
        let packet = pieces.packet();
        let place = in_response(&packet).unwrap();
        assert_eq!((place.kind, place.cause), (Kind::Dele, Cause::Size));
        assert_eq!(packet[place.at..place.at + 28], [0xee; 28]);
    }

    /// What a response's CERT is told by, less where CERT starts.
    #[test]
    fn a_cert_by_itself_is_told_from_its_own_start() {
        let mut pieces = Pieces::good();
        put(&mut pieces.dele, MAXT, &[0xdd; 4]);
        let packet = pieces.clone().packet();
        put(&mut pieces.cert, DELE, &message::encode(&pieces.dele.clone()));
        let cert = message::encode(&pieces.cert);
        let start = packet.windows(cert.len()).position(|part| part == cert).unwrap();
        let (whole, alone) = (in_response(&packet).unwrap(), in_cert(&cert).unwrap());
        assert_eq!((alone.kind, alone.cause), (Kind::Dele, Cause::Size));
        assert_eq!((whole.at, cert[alone.at]), (start + alone.at, 0xdd));
        assert_eq!(in_cert(&[]).map(|place| place.at), Some(0));
    }

    #[test]
    fn the_message_that_lacks_a_tag_is_told_by_its_start() {
        let mut pieces = Pieces::good();
        pieces.dele.retain(|pair| pair.0 != MINT);
        let dele = message::encode(&pieces.dele);
        let packet = pieces.packet();
        let place = in_response(&packet).unwrap();
        assert_eq!((place.kind, place.cause), (Kind::Dele, Cause::Absent));
        assert_eq!(packet[place.at..place.at + dele.len()], dele[..]);
    }
}
