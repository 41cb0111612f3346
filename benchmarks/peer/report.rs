//! Reports as JSON, read by serde_json and base64 as a host would: typed, with strings that are lent
//! where they have no escapes, and by the same rules (draft 19, section 8.4.1; house rules).
//!
//! What is not looked at is how deep a text nests, which serde_json bounds by itself.

use independent::packet;
use independent::pile::{MOST_RECORDS, RECORD};
use independent::refusal::Refusal;
use serde::de::{Deserializer, Error, IgnoredAny, MapAccess, SeqAccess, Visitor};
use serde::Deserialize;
use std::borrow::Cow;
use std::fmt;

/// Where things stand in a record, behind the key.
const RAND: usize = 32;
const REQUEST_LENGTH: usize = 64;
const RESPONSE_LENGTH: usize = 68;
const REQUEST: usize = 96;
const RESPONSE: usize = 2096;

/// A string.
struct Text<'a>(Cow<'a, str>);

struct TextVisitor;

impl<'de> Visitor<'de> for TextVisitor {
    type Value = Text<'de>;

    fn expecting(&self, to: &mut fmt::Formatter) -> fmt::Result {
        to.write_str("a string")
    }

    fn visit_borrowed_str<E: Error>(self, text: &'de str) -> Result<Self::Value, E> {
        Ok(Text(Cow::Borrowed(text)))
    }

    fn visit_str<E: Error>(self, text: &str) -> Result<Self::Value, E> {
        Ok(Text(Cow::Owned(text.to_owned())))
    }
}

impl<'de> Deserialize<'de> for Text<'de> {
    fn deserialize<D: Deserializer<'de>>(from: D) -> Result<Self, D::Error> {
        from.deserialize_str(TextVisitor)
    }
}

/// The strings of an entry, of which the first has no rand, whatever stands there.
#[derive(Default)]
struct Strings<'a, const FIRST: bool> {
    rand: Option<Text<'a>>,
    key: Option<Text<'a>>,
    request: Option<Text<'a>>,
    response: Option<Text<'a>>,
}

struct StringsVisitor<const FIRST: bool>;

impl<'de, const FIRST: bool> Visitor<'de> for StringsVisitor<FIRST> {
    type Value = Strings<'de, FIRST>;

    fn expecting(&self, to: &mut fmt::Formatter) -> fmt::Result {
        to.write_str("an entry")
    }

    fn visit_map<A: MapAccess<'de>>(self, mut members: A) -> Result<Self::Value, A::Error> {
        let mut found = Strings::default();
        while let Some(Text(name)) = members.next_key()? {
            let place = match &*name {
                "rand" if !FIRST => &mut found.rand,
                "publicKey" => &mut found.key,
                "request" => &mut found.request,
                "response" => &mut found.response,
                _ => {
                    members.next_value::<IgnoredAny>()?;
                    continue;
                }
            };
            if place.replace(members.next_value()?).is_some() {
                return Err(A::Error::custom("a member is there more than once"));
            }
        }
        Ok(found)
    }
}

impl<'de, const FIRST: bool> Deserialize<'de> for Strings<'de, FIRST> {
    fn deserialize<D: Deserializer<'de>>(from: D) -> Result<Self, D::Error> {
        from.deserialize_map(StringsVisitor::<FIRST>)
    }
}

/// What an entry has, each part of it decoded.
struct Entry {
    rand: Vec<u8>,
    key: Vec<u8>,
    request: Vec<u8>,
    response: Vec<u8>,
}

/// The bytes of a string that must be there. Without padding it would be taken by `base64`.
fn bytes(text: Option<Text>) -> Option<Vec<u8>> {
    let Text(text) = text?;
    if text.len() % 4 != 0 {
        return None;
    }
    base64::decode_config(&*text, base64::STANDARD).ok()
}

/// The same where they must be 32.
fn of_32(text: Option<Text>) -> Option<Vec<u8>> {
    bytes(text).filter(|bytes| bytes.len() == 32)
}

impl<const FIRST: bool> Strings<'_, FIRST> {
    fn entry(self) -> Option<Entry> {
        Some(Entry {
            rand: if FIRST { vec![0; 32] } else { of_32(self.rand)? },
            key: of_32(self.key)?,
            request: bytes(self.request)?,
            response: bytes(self.response)?,
        })
    }
}

/// The entries of a list.
struct Entries(Vec<Entry>);

struct EntriesVisitor;

impl<'de> Visitor<'de> for EntriesVisitor {
    type Value = Entries;

    fn expecting(&self, to: &mut fmt::Formatter) -> fmt::Result {
        to.write_str("entries")
    }

    fn visit_seq<A: SeqAccess<'de>>(self, mut list: A) -> Result<Self::Value, A::Error> {
        let good = |entry: Option<Entry>| entry.ok_or_else(|| A::Error::custom("no entry"));
        let mut entries = Vec::new();
        if let Some(first) = list.next_element::<Strings<true>>()? {
            entries.push(good(first.entry())?);
        }
        while let Some(next) = list.next_element::<Strings<false>>()? {
            entries.push(good(next.entry())?);
        }
        Ok(Entries(entries))
    }
}

impl<'de> Deserialize<'de> for Entries {
    fn deserialize<D: Deserializer<'de>>(from: D) -> Result<Self, D::Error> {
        from.deserialize_seq(EntriesVisitor)
    }
}

/// The outermost object.
struct Report(Entries);

struct ReportVisitor;

impl<'de> Visitor<'de> for ReportVisitor {
    type Value = Report;

    fn expecting(&self, to: &mut fmt::Formatter) -> fmt::Result {
        to.write_str("a report")
    }

    fn visit_map<A: MapAccess<'de>>(self, mut members: A) -> Result<Self::Value, A::Error> {
        let mut found = None;
        while let Some(Text(name)) = members.next_key()? {
            if name != "responses" {
                members.next_value::<IgnoredAny>()?;
            } else if found.replace(members.next_value()?).is_some() {
                return Err(A::Error::custom("`responses` is there more than once"));
            }
        }
        found.map(Report).ok_or_else(|| A::Error::missing_field("responses"))
    }
}

impl<'de> Deserialize<'de> for Report {
    fn deserialize<D: Deserializer<'de>>(from: D) -> Result<Self, D::Error> {
        from.deserialize_map(ReportVisitor)
    }
}

impl Entry {
    /// Its record, in a place that has room for one.
    fn put(&self, record: &mut [u8]) {
        let lengths = [&self.request, &self.response].map(|packet| packet.len() as u32);
        let parts: [(usize, &[u8]); 6] = [
            (0, &self.key),
            (RAND, &self.rand),
            (REQUEST_LENGTH, &lengths[0].to_le_bytes()),
            (RESPONSE_LENGTH, &lengths[1].to_le_bytes()),
            (REQUEST, &self.request),
            (RESPONSE, &self.response),
        ];
        record.fill(0);
        for (start, part) in parts {
            record[start..start + part.len()].copy_from_slice(part);
        }
    }
}

/// The entries of a text, or 24.
fn entries(text: &[u8]) -> Result<Vec<Entry>, Refusal> {
    let text = std::str::from_utf8(text).map_err(|_| Refusal::ReportText)?;
    let Report(Entries(entries)) = serde_json::from_str(text).map_err(|_| Refusal::ReportText)?;
    Ok(entries)
}

/// Writes the records of a text at the front of `out`, and tells how many they are. What follows
/// them stays, and all of it on a refusal: the first of 24, 25 and 19.
pub fn read_into(text: &[u8], out: &mut [u8]) -> Result<usize, Refusal> {
    let entries = entries(text)?;
    let long = |entry: &Entry| entry.request.len().max(entry.response.len()) > packet::MOST;
    if !(1..=MOST_RECORDS).contains(&entries.len()) || entries.iter().any(long) {
        return Err(Refusal::ReportSize);
    }
    let front = out.get_mut(..RECORD * entries.len()).ok_or(Refusal::BufferTooShort)?;
    entries.iter().zip(front.chunks_mut(RECORD)).for_each(|(entry, record)| entry.put(record));
    Ok(entries.len())
}
