//! The malfeasance report in vectors/, which is the one that draft 19 gives as an example in
//! appendix B.

use crate::base64;
use crate::making::{self, Made};

/// The report, as the draft has it.
const REPORT: &str = include_str!("../../vectors/malfeasance-report.json");

/// One response of the report, with what led to it.
#[derive(Clone, Debug, PartialEq, Eq)]
pub struct Entry {
    /// The server's long-term key.
    pub key: [u8; 32],
    /// What blinds the nonce. The first request of a chain has none.
    pub rand: Option<[u8; 32]>,
    /// The request packet.
    pub request: Vec<u8>,
    /// The response packet.
    pub response: Vec<u8>,
}

/// The entries of the report, in the order received. This is no reader of JSON: it takes our file,
/// with each member on a line of its own.
pub fn entries() -> Vec<Entry> {
    REPORT.split('}').filter(|object| object.contains("publicKey")).map(entry).collect()
}

/// The entries as a pile. The draft says that all signatures are right.
pub fn pile() -> Made {
    let record = |Entry { key, rand, request, response }: &Entry| {
        making::record(key, &rand.unwrap_or([0; 32]), request, response)
    };
    let entries = entries();
    Made { pile: entries.iter().flat_map(record).collect(), answers: vec![1; 2 * entries.len()] }
}

fn entry(object: &str) -> Entry {
    Entry {
        key: array(member(object, "publicKey").expect("every entry has a key")),
        rand: member(object, "rand").map(array),
        request: member(object, "request").expect("every entry has a request"),
        response: member(object, "response").expect("every entry has a response"),
    }
}

/// The bytes of a member, if it is there. Quotes part the line into space, name, colon, value and
/// comma.
fn member(object: &str, name: &str) -> Option<Vec<u8>> {
    let parts = object.lines().map(|line| line.split('"').collect::<Vec<_>>());
    let line = parts.into_iter().find(|parts| parts.get(1) == Some(&name) && parts.len() == 5)?;
    Some(base64::decode(line[3]).unwrap_or_else(|| panic!("{name} is no base64: {}", line[3])))
}

fn array(bytes: Vec<u8>) -> [u8; 32] {
    bytes.try_into().unwrap_or_else(|bytes: Vec<u8>| {
        panic!("there are {} bytes, and 32 are needed", bytes.len())
    })
}
