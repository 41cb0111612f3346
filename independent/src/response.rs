//! Responses (draft 19, section 5.2): what a server answers, and what it signs.
//!
//! A response is four messages, one in the other: the outermost holds SREP and CERT, and CERT holds
//! DELE. Each is judged to its end, frame, tags and values, before the next is looked at, in the
//! order of the fields of [`Response`].

use crate::hash::Hash;
use crate::message::Message;
use crate::refusal::Refusal;
use crate::tag::{
    CERT, DELE, INDX, MAXT, MIDP, MINT, NONC, PATH, PUBK, RADI, ROOT, SIG, SREP, TYPE, VER, VERS,
};
use crate::{packet, value, VERSION};

/// TYPE of a response.
pub const TYPE_OF_RESPONSE: u32 = 1;

/// A response whose messages have the right shape.
#[derive(Clone, Debug, PartialEq, Eq)]
pub struct Response<'a> {
    /// The outermost message.
    pub outer: Outer<'a>,
    /// The signed response.
    pub srep: Srep<'a>,
    /// The certificate.
    pub cert: Cert<'a>,
    /// The delegation in the certificate.
    pub dele: Dele<'a>,
}

/// The outermost message of a response.
#[derive(Clone, Debug, PartialEq, Eq)]
pub struct Outer<'a> {
    /// SIG: the delegated key's signature of SREP.
    pub sig: [u8; 64],
    /// NONC: the nonce of the request.
    pub nonc: [u8; 32],
    /// TYPE: 1 in a good response.
    pub kind: u32,
    /// PATH: the siblings from the leaf up.
    pub path: Vec<Hash>,
    /// The value of SREP.
    pub srep: &'a [u8],
    /// The value of CERT.
    pub cert: &'a [u8],
    /// INDX: which leaf the request is.
    pub indx: u32,
}

/// The message SREP.
#[derive(Clone, Debug, PartialEq, Eq)]
pub struct Srep<'a> {
    /// The bytes of the message, which are what is signed.
    pub bytes: &'a [u8],
    /// VER: the version of the response, 1 in a good one.
    pub version: u32,
    /// RADI: the radius, in seconds, never 0.
    pub radi: u32,
    /// MIDP: the midpoint.
    pub midp: u64,
    /// VERS: the versions that the server knows, rising. That of a good response is among them.
    pub versions: Vec<u32>,
    /// ROOT: the root of the tree.
    pub root: Hash,
}

/// The message CERT.
#[derive(Clone, Debug, PartialEq, Eq)]
pub struct Cert<'a> {
    /// SIG: the long-term key's signature of DELE.
    pub sig: [u8; 64],
    /// The value of DELE.
    pub dele: &'a [u8],
}

/// The message DELE.
#[derive(Clone, Debug, PartialEq, Eq)]
pub struct Dele<'a> {
    /// The bytes of the message, which are what is signed.
    pub bytes: &'a [u8],
    /// PUBK: the delegated key.
    pub pubk: [u8; 32],
    /// MINT: the first second at which it may sign.
    pub mint: u64,
    /// MAXT: the last second at which it may sign.
    pub maxt: u64,
}

impl<'a> Outer<'a> {
    fn read(bytes: &'a [u8]) -> Result<Self, Refusal> {
        let message = Message::read(bytes)?;
        let [sig, nonc, kind, path, srep, cert, indx] =
            message.needed([SIG, NONC, TYPE, PATH, SREP, CERT, INDX])?;
        Ok(Outer {
            sig: value::array(sig)?,
            nonc: value::array(nonc)?,
            kind: value::number(kind)?,
            path: value::path(path)?,
            srep,
            cert,
            indx: value::number(indx)?,
        })
    }
}

impl<'a> Srep<'a> {
    fn read(bytes: &'a [u8]) -> Result<Self, Refusal> {
        let message = Message::read(bytes)?;
        let [version, radi, midp, versions, root] =
            message.needed([VER, RADI, MIDP, VERS, ROOT])?;
        Ok(Srep {
            bytes,
            version: value::number(version)?,
            radi: value::radius(radi)?,
            midp: value::time(midp)?,
            versions: value::versions(versions)?,
            root: value::array(root)?,
        })
    }
}

impl<'a> Cert<'a> {
    /// The message that the value of CERT is.
    pub fn read(bytes: &'a [u8]) -> Result<Self, Refusal> {
        let [sig, dele] = Message::read(bytes)?.needed([SIG, DELE])?;
        Ok(Cert { sig: value::array(sig)?, dele })
    }
}

impl<'a> Dele<'a> {
    /// The message that the value of DELE is.
    pub fn read(bytes: &'a [u8]) -> Result<Self, Refusal> {
        let [pubk, mint, maxt] = Message::read(bytes)?.needed([PUBK, MINT, MAXT])?;
        Ok(Dele {
            bytes,
            pubk: value::array(pubk)?,
            mint: value::time(mint)?,
            maxt: value::time(maxt)?,
        })
    }
}

/// The response that `packet` is, of any TYPE and version: what codes 1 to 7 leave.
pub fn shaped(packet: &[u8]) -> Result<Response<'_>, Refusal> {
    let outer = Outer::read(packet::message(packet)?)?;
    let srep = Srep::read(outer.srep)?;
    let cert = Cert::read(outer.cert)?;
    let dele = Dele::read(cert.dele)?;
    Ok(Response { outer, srep, cert, dele })
}

/// The response that `packet` is.
pub fn read(packet: &[u8]) -> Result<Response<'_>, Refusal> {
    let response = shaped(packet)?;
    let Srep { version, versions, .. } = &response.srep;
    let right = response.outer.kind == TYPE_OF_RESPONSE
        && *version == VERSION
        && versions.contains(version);
    if right {
        Ok(response)
    } else {
        Err(Refusal::Kind)
    }
}

#[cfg(test)]
mod tests {
    use super::*;
    use crate::message;
    use crate::pieces::{put, Pairs, Pieces};
    use crate::tag::Tag;
    use crate::value::list;

    fn good() -> Pieces {
        Pieces::good()
    }

    impl Pieces {
        /// The four lists in the order in which they are judged.
        fn lists(&mut self) -> [&mut Pairs; 4] {
            [&mut self.outer, &mut self.srep, &mut self.cert, &mut self.dele]
        }

        fn code(self) -> Option<u32> {
            read(&self.packet()).err().map(Refusal::code)
        }
    }

    #[test]
    fn a_good_response_says_its_fields() {
        let packet = good().packet();
        let response = read(&packet).unwrap();
        assert_eq!(response.outer.nonc, [11; 32]);
        assert_eq!(response.outer.path, [[12; 32]; 2]);
        assert_eq!(response.outer.indx, 3);
        assert_eq!((response.srep.midp, response.srep.radi), (256, 5));
        assert_eq!((response.srep.versions, response.srep.root), (vec![1], [13; 32]));
        assert_eq!((response.dele.mint, response.dele.maxt), (0, u64::MAX));
        assert_eq!((response.outer.sig, response.cert.sig), ([10; 64], [14; 64]));
        assert_eq!(response.dele.pubk, [15; 32]);
    }

    #[test]
    fn unknown_tags_are_ignored_in_every_message() {
        let mut pieces = good();
        for list in pieces.lists() {
            list.extend([(0, vec![1; 4]), (0x4a4a_4a4a, vec![]), (Tag::MAX, vec![2; 8])]);
            list.sort();
        }
        let (plain, packet) = (good().packet(), pieces.packet());
        let (plain, response) = (read(&plain).unwrap(), read(&packet).unwrap());
        assert_eq!((response.outer.nonc, response.srep.midp), (plain.outer.nonc, plain.srep.midp));
        assert_eq!((response.srep.root, response.dele.maxt), (plain.srep.root, plain.dele.maxt));
    }

    #[test]
    fn every_tag_of_every_message_is_needed() {
        for level in 0..4 {
            for at in 0..good().lists()[level].len() {
                let mut pieces = good();
                pieces.lists()[level].remove(at);
                assert_eq!(pieces.code(), Some(6), "message {level}, tag {at}");
            }
        }
    }

    /// Four bytes more are too many everywhere; a list of versions then has a 0 after its 1. Nested
    /// messages have no length of their own.
    #[test]
    fn every_value_has_its_length() {
        for level in 0..4 {
            for at in 0..good().lists()[level].len() {
                let mut pieces = good();
                let (tag, value) = &mut pieces.lists()[level][at];
                if ![SREP, CERT, DELE].contains(tag) {
                    value.extend([0; 4]);
                    assert_eq!(pieces.code(), Some(7), "message {level}, tag {at}");
                }
            }
        }
    }

    #[test]
    fn an_empty_nested_message_has_no_frame() {
        // Nothing was put in at SREP and CERT yet.
        assert_eq!(read(&packet::encode(&message::encode(&good().outer))), Err(Refusal::Frame));
    }

    #[test]
    fn type_and_version_are_1() {
        for number in [0u32, 2, 0x0100_0000, 0x8000_000c] {
            let (mut kind, mut version) = (good(), good());
            put(&mut kind.outer, TYPE, &number.to_le_bytes());
            put(&mut version.srep, VER, &number.to_le_bytes());
            assert_eq!(kind.code(), Some(8));
            assert_eq!(version.code(), Some(8));
        }
    }

    /// Each message is spoilt in turn, from the last to the first and from the latest code to the
    /// earliest: the new damage counts.
    #[test]
    fn the_first_refusal_counts() {
        let mut pieces = good();
        put(&mut pieces.outer, TYPE, &[0; 4]);
        assert_eq!(pieces.clone().code(), Some(8));
        for level in (0..4).rev() {
            // INDX, ROOT, SIG and MAXT: none of them holds another message.
            let at = [6, 4, 0, 2][level];
            pieces.lists()[level][at].1.clear();
            assert_eq!(pieces.clone().code(), Some(7), "message {level}");
            let tag = std::mem::replace(&mut pieces.lists()[level][at].0, Tag::MAX - 1);
            pieces.lists()[level].sort();
            assert_eq!(pieces.clone().code(), Some(6), "message {level} without {tag:#x}");
            pieces.lists()[level].extend([(Tag::MAX, vec![]), (Tag::MAX, vec![])]);
            assert_eq!(pieces.clone().code(), Some(5), "message {level}");
            pieces.lists()[level].extend((0..30).map(|_| (Tag::MAX, vec![])));
            assert_eq!(pieces.clone().code(), Some(4), "message {level}");
        }
    }

    #[test]
    fn the_servers_versions_hold_that_of_the_response() {
        for (versions, due) in [
            (&[1][..], None),
            (&[1, 2], None),
            (&[0, 1], None),
            (&[0, 1, 0x8000_000c], None),
            (&[0], Some(8)),
            (&[2], Some(8)),
            (&[0, 2], Some(8)),
            (&[0x0100_0000], Some(8)),
        ] {
            let mut pieces = good();
            put(&mut pieces.srep, VERS, &list(versions));
            assert_eq!(pieces.code(), due, "{versions:?}");
        }
        // That both are the same does not help where it is a version that nobody knows.
        let mut pieces = good();
        put(&mut pieces.srep, VER, &list(&[2]));
        put(&mut pieces.srep, VERS, &list(&[2]));
        assert_eq!(pieces.code(), Some(8));
    }

    /// It is judged with the other values of SREP: after its tags, and before CERT.
    #[test]
    fn a_radius_of_0_is_a_wrong_value_of_srep() {
        let mut pieces = good();
        put(&mut pieces.outer, TYPE, &[0; 4]);
        put(&mut pieces.srep, RADI, &[0; 4]);
        assert_eq!(shaped(&pieces.clone().packet()), Err(Refusal::Value));
        assert_eq!(pieces.clone().code(), Some(7));
        pieces.cert.swap(0, 1);
        assert_eq!(pieces.clone().code(), Some(7));
        pieces.srep.retain(|pair| pair.0 != ROOT);
        assert_eq!(pieces.code(), Some(6));
    }
}
