//! A message of Roughtime as its pairs of a tag and a value (draft 19, section 4), for grease alone:
//! what is answered in earnest the library writes.

pub type Tag = [u8; 4];

/// Pairs in the order of their tags.
#[derive(Clone, Debug, PartialEq, Eq)]
pub struct Pairs(Vec<(Tag, Vec<u8>)>);

/// Bytes of the mark in front of a packet, and of the length behind it.
const MARK: &[u8; 8] = b"ROUGHTIM";
const FRONT: usize = 12;

fn word(bytes: &[u8], at: usize) -> Option<usize> {
    let word: [u8; 4] = bytes.get(at..at.checked_add(4)?)?.try_into().ok()?;
    usize::try_from(u32::from_le_bytes(word)).ok()
}

/// Tags are sorted as numbers.
fn number(tag: &Tag) -> u32 {
    u32::from_le_bytes(*tag)
}

impl Pairs {
    /// Those of a message that the library wrote or took for good; nothing where it is none.
    pub fn of(message: &[u8]) -> Option<Pairs> {
        let count = word(message, 0)?;
        let head = count.checked_mul(8).filter(|head| (8..=message.len()).contains(head))?;
        let values = &message[head..];
        let starts =
            (0..count).map(|pair| if pair == 0 { Some(0) } else { word(message, 4 * pair) });
        let mut starts = starts.collect::<Option<Vec<usize>>>()?;
        starts.push(values.len());
        let pair = |at: usize| {
            let tag = message[4 * (count + at)..][..4].try_into().ok()?;
            Some((tag, values.get(starts[at]..starts[at + 1])?.to_vec()))
        };
        (0..count).map(pair).collect::<Option<Vec<_>>>().map(Pairs)
    }

    /// Those of the message in a packet.
    pub fn of_packet(packet: &[u8]) -> Option<Pairs> {
        Pairs::of(packet.get(FRONT..)?)
    }

    pub fn message(&self) -> Vec<u8> {
        let mut bytes = (self.0.len() as u32).to_le_bytes().to_vec();
        let mut end = 0;
        for (_, value) in &self.0[..self.0.len().saturating_sub(1)] {
            end += value.len() as u32;
            bytes.extend(end.to_le_bytes());
        }
        bytes.extend(self.0.iter().flat_map(|(tag, _)| tag));
        bytes.extend(self.0.iter().flat_map(|(_, value)| value));
        bytes
    }

    pub fn packet(&self) -> Vec<u8> {
        let message = self.message();
        [&MARK[..], &(message.len() as u32).to_le_bytes(), &message].concat()
    }

    pub fn value(&self, tag: &Tag) -> Option<&[u8]> {
        self.0.iter().find(|(known, _)| known == tag).map(|(_, value)| &value[..])
    }

    /// Puts a pair at its place, or another value in the place of one that is there.
    pub fn put(&mut self, tag: Tag, value: &[u8]) {
        self.take_out(&tag);
        let place = self.0.partition_point(|(known, _)| number(known) < number(&tag));
        self.0.insert(place, (tag, value.to_vec()));
    }

    /// Takes a pair out, where it is there.
    pub fn take_out(&mut self, tag: &Tag) {
        self.0.retain(|(known, _)| known != tag);
    }
}

#[cfg(test)]
mod tests {
    use super::*;

    #[test]
    fn what_the_library_writes_is_read_and_written_again() {
        let mut request = [0; trawlbeacon::REQUEST_LENGTH];
        trawlbeacon::write_request(&[1; 32], &[5; 32], &mut request).unwrap();
        let mut pairs = Pairs::of_packet(&request).unwrap();
        assert_eq!(pairs.packet(), request);
        assert_eq!(pairs.value(b"NONC"), Some(&[5; 32][..]));
        pairs.put(*b"NONC", &[6; 32]);
        let changed = trawlbeacon::read_request(&pairs.packet()).unwrap();
        assert_eq!(changed.nonc, [6; 32]);
        pairs.put(*b"AAAA", &[1; 8]);
        assert!(trawlbeacon::read_request(&pairs.packet()).is_ok());
        pairs.take_out(b"NONC");
        assert!(trawlbeacon::read_request(&pairs.packet()).is_err());
    }

    #[test]
    fn any_bytes_are_pairs_or_none() {
        let mut request = [0; trawlbeacon::REQUEST_LENGTH];
        trawlbeacon::write_request(&[1; 32], &[5; 32], &mut request).unwrap();
        for at in 0..64 {
            for byte in [0, 1, 0x7f, 0xff] {
                let mut spoilt = request;
                spoilt[at] = byte;
                let _ = Pairs::of_packet(&spoilt[..]);
            }
            assert!(Pairs::of_packet(&request[..at]).is_none());
        }
    }
}
