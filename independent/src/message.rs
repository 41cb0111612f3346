//! Messages: pairs of a tag and a value (draft 19, section 4), read and written.
//!
//! A message is N, then N-1 offsets, then N tags, each a u32 with its lowest byte first, then the
//! values. The value of the first tag starts where the values start, each next at its offset, and
//! the last ends with the message.

use crate::refusal::Refusal;
use crate::tag::Tag;

/// The most pairs that a message may have. The draft sets no limit; this is a house rule.
const MOST_PAIRS: usize = 32;

/// A message whose frame is right: its values are in order, and every tag stands once.
#[derive(Clone, Debug, PartialEq, Eq)]
pub struct Message<'a> {
    pairs: Vec<(Tag, &'a [u8])>,
}

/// The numbers in `bytes`, or nothing where there are no whole ones.
fn words(bytes: &[u8]) -> Option<Vec<u32>> {
    let chunks = bytes.chunks_exact(4);
    if !chunks.remainder().is_empty() {
        return None;
    }
    Some(
        chunks
            .map(|chunk| u32::from_le_bytes(chunk.try_into().expect("chunks_exact gives 4 bytes")))
            .collect(),
    )
}

/// N, where it is a number that a message of this many words can have: N pairs have a header of 2 N
/// words.
fn count(words: &[u32]) -> Option<usize> {
    let count = usize::try_from(*words.first()?).ok()?;
    ((1..=MOST_PAIRS).contains(&count) && 2 * count <= words.len()).then_some(count)
}

/// Where each value starts, and where the last one ends, if the offsets are as they must be.
fn bounds(offsets: &[u32], end: usize) -> Option<Vec<usize>> {
    let mut bounds = vec![0];
    for offset in offsets {
        bounds.push(usize::try_from(*offset).ok()?);
    }
    bounds.push(end);
    // An offset past the end falls to the end that follows it, so the same test finds both.
    let falls = bounds.windows(2).any(|pair| pair[0] > pair[1]);
    let uneven = bounds.iter().any(|bound| bound % 4 != 0);
    (!falls && !uneven).then_some(bounds)
}

impl<'a> Message<'a> {
    /// The message that `bytes` are. Its tags and values may still be any.
    pub fn read(bytes: &'a [u8]) -> Result<Self, Refusal> {
        let words = words(bytes).ok_or(Refusal::Frame)?;
        let count = count(&words).ok_or(Refusal::Frame)?;
        let (offsets, tags) = words[1..2 * count].split_at(count - 1);
        let values = &bytes[8 * count..];
        let bounds = bounds(offsets, values.len()).ok_or(Refusal::Frame)?;
        if tags.windows(2).any(|pair| pair[0] >= pair[1]) {
            return Err(Refusal::TagOrder);
        }
        let values = bounds.windows(2).map(|pair| &values[pair[0]..pair[1]]);
        Ok(Message { pairs: tags.iter().copied().zip(values).collect() })
    }

    /// The value of `tag`, if it is there.
    pub fn get(&self, tag: Tag) -> Option<&'a [u8]> {
        self.pairs.iter().find(|pair| pair.0 == tag).map(|pair| pair.1)
    }

    /// The values of all these tags.
    ///
    /// One call takes all that a message needs, so that an absent tag is found before any value is
    /// looked at.
    pub fn needed<const N: usize>(&self, tags: [Tag; N]) -> Result<[&'a [u8]; N], Refusal> {
        let found: Option<Vec<_>> = tags.iter().map(|tag| self.get(*tag)).collect();
        Ok(found.ok_or(Refusal::TagAbsent)?.try_into().expect("there is a value for each tag"))
    }
}

/// The bytes of the message that has these pairs, in this order. It is for the caller to sort them,
/// and to give values of whole words.
pub fn encode<V: AsRef<[u8]>>(pairs: &[(Tag, V)]) -> Vec<u8> {
    let mut bytes = (pairs.len() as u32).to_le_bytes().to_vec();
    let mut offset = 0;
    for (_, value) in &pairs[..pairs.len().saturating_sub(1)] {
        offset += value.as_ref().len() as u32;
        bytes.extend(offset.to_le_bytes());
    }
    bytes.extend(pairs.iter().flat_map(|pair| pair.0.to_le_bytes()));
    for (_, value) in pairs {
        bytes.extend(value.as_ref());
    }
    bytes
}

#[cfg(test)]
mod tests {
    use super::*;

    /// The bytes of a message by its words.
    fn bytes(words: &[u32]) -> Vec<u8> {
        words.iter().flat_map(|word| word.to_le_bytes()).collect()
    }

    fn refusal(words: &[u32]) -> Option<Refusal> {
        Message::read(&bytes(words)).err()
    }

    #[test]
    fn values_stand_between_their_offsets() {
        let bytes = bytes(&[3, 4, 4, 10, 20, 30, 0xaaaa, 0xbbbb, 0xcccc]);
        let message = Message::read(&bytes).unwrap();
        assert_eq!(message.get(10), Some(&[0xaa, 0xaa, 0, 0][..]));
        assert_eq!(message.get(20), Some(&[][..]));
        assert_eq!(message.get(30), Some(&[0xbb, 0xbb, 0, 0, 0xcc, 0xcc, 0, 0][..]));
        assert_eq!(message.get(40), None);
    }

    #[test]
    fn a_message_of_four_zero_bytes_is_refused() {
        assert_eq!(refusal(&[0]), Some(Refusal::Frame));
        assert_eq!(refusal(&[]), Some(Refusal::Frame));
    }

    #[test]
    fn the_length_must_be_whole_words() {
        let whole = bytes(&[1, 7, 0, 0]);
        for length in 0..=whole.len() {
            let read = Message::read(&whole[..length]);
            assert_eq!(read.is_ok(), length >= 8 && length % 4 == 0, "{length} bytes");
        }
    }

    #[test]
    fn the_number_of_pairs_is_1_to_32() {
        let with_pairs = |n: u32| [vec![n], vec![0; n as usize - 1], (1..=n).collect()].concat();
        for n in 1..=32 {
            assert_eq!(refusal(&with_pairs(n)), None, "{n} pairs");
            assert_eq!(
                refusal(&with_pairs(n)[..2 * n as usize - 1]),
                Some(Refusal::Frame),
                "header of {n} pairs cut"
            );
        }
        for n in [0, 33, 0x2000_0001, 0x8000_0001, u32::MAX] {
            let mut words = with_pairs(33);
            words[0] = n;
            assert_eq!(refusal(&words), Some(Refusal::Frame), "{n} pairs");
        }
    }

    #[test]
    fn offsets_are_whole_words_never_fall_and_stay_inside() {
        let with_offsets = |a, b| refusal(&[3, a, b, 1, 2, 3, 0, 0]);
        for (a, b) in [(0, 0), (0, 8), (4, 4), (8, 8), (4, 8)] {
            assert_eq!(with_offsets(a, b), None, "{a}, {b}");
        }
        for (a, b) in [
            (1, 4),
            (2, 4),
            (4, 7),
            (4, 0),
            (8, 4),
            (0, 12),
            (12, 12),
            (u32::MAX - 3, 0),
            (0, u32::MAX),
        ] {
            assert_eq!(with_offsets(a, b), Some(Refusal::Frame), "{a}, {b}");
        }
    }

    #[test]
    fn tags_rise_strictly_and_offsets_come_first() {
        assert_eq!(refusal(&[2, 0, 5, 5]), Some(Refusal::TagOrder));
        assert_eq!(refusal(&[2, 0, 6, 5]), Some(Refusal::TagOrder));
        assert_eq!(refusal(&[2, 0, 0, u32::MAX]), None);
        assert_eq!(refusal(&[2, 4, 5, 5]), Some(Refusal::Frame));
    }

    #[test]
    fn what_is_needed_is_found_at_any_place() {
        let bytes = bytes(&[3, 0, 4, 1, 2, 3, 0xaa, 0xbb]);
        let message = Message::read(&bytes).unwrap();
        assert_eq!(message.needed([3, 1]), Ok([&[0xbb, 0, 0, 0][..], &[]]));
        assert_eq!(message.needed([3, 4]), Err(Refusal::TagAbsent));
    }

    #[test]
    fn what_was_encoded_is_read_back() {
        let pairs: Vec<(Tag, Vec<u8>)> =
            (0..32).map(|i| (i * 5, vec![i as u8; 4 * (i as usize % 3)])).collect();
        for n in 1..=pairs.len() {
            let bytes = encode(&pairs[..n]);
            let message = Message::read(&bytes).unwrap();
            let read: Vec<(Tag, Vec<u8>)> =
                message.pairs.iter().map(|pair| (pair.0, pair.1.to_vec())).collect();
            assert_eq!(read, pairs[..n]);
        }
    }
}
