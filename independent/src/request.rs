//! Requests (draft 19, section 5.1): what a client asks a server for the time with.

use crate::message::Message;
use crate::refusal::Refusal;
use crate::tag::{NONC, SRV, TYPE, VER};
use crate::{packet, value, VERSION};

/// TYPE of a request.
pub const TYPE_OF_REQUEST: u32 = 0;

/// What a good request says.
#[derive(Clone, Debug, PartialEq, Eq)]
pub struct Request {
    /// VER: the versions that the client knows, rising. Version 1 is among them.
    pub versions: Vec<u32>,
    /// SRV: by which the client names the key that it expects, if it does.
    pub srv: Option<[u8; 32]>,
    /// NONC: the nonce.
    pub nonc: [u8; 32],
}

/// The request that `packet` is.
pub fn read(packet: &[u8]) -> Result<Request, Refusal> {
    let message = Message::read(packet::message(packet)?)?;
    let [versions, nonc, kind] = message.needed([VER, NONC, TYPE])?;
    let versions = value::versions(versions)?;
    let srv = message.get(SRV).map(value::array).transpose()?;
    let nonc = value::array(nonc)?;
    let kind = value::number(kind)?;
    if kind == TYPE_OF_REQUEST && versions.contains(&VERSION) {
        Ok(Request { versions, srv, nonc })
    } else {
        Err(Refusal::Kind)
    }
}

#[cfg(test)]
mod tests {
    use super::*;
    use crate::message;
    use crate::tag::{Tag, ROOT, ZZZZ};

    type Pairs = Vec<(Tag, Vec<u8>)>;

    fn good() -> Pairs {
        vec![(VER, vec![1, 0, 0, 0]), (SRV, vec![2; 32]), (NONC, vec![3; 32]), (TYPE, vec![0; 4])]
    }

    fn read_pairs(pairs: &Pairs) -> Result<Request, Refusal> {
        read(&packet::encode(&message::encode(pairs)))
    }

    /// What comes of a good request where `tag` has `value` instead of its own.
    fn with(tag: Tag, value: &[u8]) -> Option<Refusal> {
        let mut pairs = good();
        pairs.iter_mut().filter(|pair| pair.0 == tag).for_each(|pair| pair.1 = value.to_vec());
        read_pairs(&pairs).err()
    }

    fn without(tags: &[Tag]) -> Result<Request, Refusal> {
        read_pairs(&good().into_iter().filter(|pair| !tags.contains(&pair.0)).collect())
    }

    #[test]
    fn a_good_request_says_its_fields() {
        let said = Request { versions: vec![1], srv: Some([2; 32]), nonc: [3; 32] };
        assert_eq!(read_pairs(&good()), Ok(said.clone()));
        assert_eq!(without(&[SRV]), Ok(Request { srv: None, ..said }));
    }

    #[test]
    fn unknown_tags_are_ignored_wherever_they_stand() {
        let mut pairs = good();
        pairs.extend([
            (0, vec![]),
            (VER + 1, vec![5; 8]),
            (ROOT, vec![6; 4]),
            (ZZZZ, vec![7; 400]),
            (Tag::MAX, vec![]),
        ]);
        pairs.sort();
        assert_eq!(read_pairs(&pairs), read_pairs(&good()));
    }

    #[test]
    fn every_needed_tag_is_needed() {
        for tag in [VER, NONC, TYPE] {
            assert_eq!(without(&[tag]), Err(Refusal::TagAbsent));
        }
    }

    #[test]
    fn values_have_their_lengths() {
        for (tag, length) in
            [(VER, 0), (VER, 132), (SRV, 0), (SRV, 28), (NONC, 36), (TYPE, 0), (TYPE, 8)]
        {
            assert_eq!(
                with(tag, &vec![0; length]),
                Some(Refusal::Value),
                "{tag:#x} of {length} bytes"
            );
        }
        assert_eq!(with(VER, &[1, 0, 0, 0, 1, 0, 0, 0]), Some(Refusal::Value));
    }

    #[test]
    fn type_is_0_and_version_1_is_known() {
        assert_eq!(with(TYPE, &[1, 0, 0, 0]), Some(Refusal::Kind));
        assert_eq!(with(TYPE, &[0, 0, 0, 1]), Some(Refusal::Kind));
        assert_eq!(with(VER, &[0, 0, 0, 0, 2, 0, 0, 0]), Some(Refusal::Kind));
        assert_eq!(with(VER, &[0, 0, 0, 0, 1, 0, 0, 0, 12, 0, 0, 128]), None);
    }

    /// An absent tag comes before a wrong length, and both before a wrong TYPE.
    #[test]
    fn the_first_refusal_counts() {
        let mut pairs = good();
        pairs[1].1 = vec![];
        pairs[3].1 = vec![1, 0, 0, 0];
        assert_eq!(read_pairs(&pairs), Err(Refusal::Value));
        pairs.remove(2);
        assert_eq!(read_pairs(&pairs), Err(Refusal::TagAbsent));
        pairs.swap(0, 1);
        assert_eq!(read_pairs(&pairs), Err(Refusal::TagOrder));
    }
}
