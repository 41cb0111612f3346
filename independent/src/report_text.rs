//! Reports as JSON (draft 19, section 8.4.1; house rules): read as the records of a pile, and
//! written from one.
//!
//! The text is refused with 24 where it is no report in this form, and with 25 where it is one that
//! has too many bytes in a packet, no entry or too many. Beside the code stands the cause, so that
//! a test can tell whether it met each of them.

use crate::base64;
use crate::json::{self, Value};
use crate::making;
use crate::packet;
use crate::pile::{self, Record, MOST_RECORDS, RECORD};
use crate::refusal::Refusal;
use crate::report::{self, NoReport};
use crate::write;

/// How many objects and arrays may stand within each other, the outermost counted.
pub const MOST_DEPTH: usize = 16;

/// The member of the outermost object.
const RESPONSES: &[u8] = b"responses";

/// A member of an entry. They are written in this order, which is that of the draft's sentence.
#[derive(Clone, Copy, Debug, PartialEq, Eq, PartialOrd, Ord)]
pub enum Member {
    /// What blinds the nonce.
    Rand,
    /// The server's long-term key.
    PublicKey,
    /// The request packet.
    Request,
    /// The response packet.
    Response,
}

impl Member {
    /// All four, in the draft's order.
    pub const ALL: [Member; 4] =
        [Member::Rand, Member::PublicKey, Member::Request, Member::Response];

    /// Its name.
    pub fn name(self) -> &'static str {
        match self {
            Member::Rand => "rand",
            Member::PublicKey => "publicKey",
            Member::Request => "request",
            Member::Response => "response",
        }
    }
}

/// Why a text is refused.
#[derive(Clone, Copy, Debug, PartialEq, Eq, PartialOrd, Ord)]
pub enum Cause {
    /// It is not JSON, or nests too deep.
    Json(json::Fault),
    /// The outermost value is no object.
    Outermost,
    /// `responses` is missing.
    NoResponses,
    /// It is there more than once.
    ManyResponses,
    /// It is no list.
    ResponsesKind,
    /// An entry is no object.
    EntryKind,
    /// A member of an entry is missing.
    Missing(Member),
    /// It is there more than once.
    Repeated(Member),
    /// It is no string.
    Kind(Member),
    /// It is a string that is no base64.
    Base64(Member, base64::Fault),
    /// A key or a rand has not 32 bytes.
    Length(Member),
    /// There is no entry.
    NoEntry,
    /// There are more than 16.
    ManyEntries,
    /// A packet has more than 2,000 bytes.
    Packet(Member),
}

impl Cause {
    /// The refusal that it leads to.
    pub fn refusal(self) -> Refusal {
        match self {
            Cause::NoEntry | Cause::ManyEntries | Cause::Packet(_) => Refusal::ReportSize,
            _ => Refusal::ReportText,
        }
    }

    /// Every cause that there is.
    pub fn all() -> Vec<Cause> {
        let whole = [
            Cause::Outermost,
            Cause::NoResponses,
            Cause::ManyResponses,
            Cause::ResponsesKind,
            Cause::EntryKind,
            Cause::Length(Member::Rand),
            Cause::Length(Member::PublicKey),
            Cause::NoEntry,
            Cause::ManyEntries,
            Cause::Packet(Member::Request),
            Cause::Packet(Member::Response),
        ];
        let of_a_member = Member::ALL.into_iter().flat_map(|member| {
            let base64 = base64::Fault::ALL.map(|fault| Cause::Base64(member, fault));
            [Cause::Missing(member), Cause::Repeated(member), Cause::Kind(member)]
                .into_iter()
                .chain(base64)
        });
        let json = json::Fault::all().into_iter().map(Cause::Json);
        json.chain(whole).chain(of_a_member).collect()
    }
}

/// One response of a report, with what led to it.
#[derive(Clone, Debug, PartialEq, Eq)]
pub struct Entry {
    /// The server's long-term key.
    pub key: [u8; 32],
    /// What blinds the nonce: zeros in the first entry, whatever the text has there.
    pub rand: [u8; 32],
    /// The request packet.
    pub request: Vec<u8>,
    /// The response packet.
    pub response: Vec<u8>,
}

impl Entry {
    /// The record of this entry.
    pub fn record(&self) -> Vec<u8> {
        making::record(&self.key, &self.rand, &self.request, &self.response)
    }
}

/// The entries of a text. All that leads to 24 is looked for in the whole of it before anything
/// that leads to 25.
pub fn read(text: &[u8]) -> Result<Vec<Entry>, Cause> {
    let outermost = json::read(text, MOST_DEPTH).map_err(Cause::Json)?;
    let Value::Object(members) = outermost else { return Err(Cause::Outermost) };
    let mut found = members.iter().filter(|(name, _)| name == RESPONSES);
    let (_, responses) = found.next().ok_or(Cause::NoResponses)?;
    if found.next().is_some() {
        return Err(Cause::ManyResponses);
    }
    let Value::List(values) = responses else { return Err(Cause::ResponsesKind) };
    let entries: Result<Vec<Entry>, Cause> = values.iter().enumerate().map(entry).collect();
    within_limits(entries?)
}

/// The entries, where they are 1 to 16 and their packets are not too long.
fn within_limits(entries: Vec<Entry>) -> Result<Vec<Entry>, Cause> {
    match entries.len() {
        0 => return Err(Cause::NoEntry),
        1..=MOST_RECORDS => (),
        _ => return Err(Cause::ManyEntries),
    }
    for entry in &entries {
        for (member, bytes) in
            [(Member::Request, &entry.request), (Member::Response, &entry.response)]
        {
            if bytes.len() > packet::MOST {
                return Err(Cause::Packet(member));
            }
        }
    }
    Ok(entries)
}

/// One entry, by its place. What the first has for a rand is not even looked at.
fn entry((place, value): (usize, &Value)) -> Result<Entry, Cause> {
    let Value::Object(members) = value else { return Err(Cause::EntryKind) };
    let rand = if place == 0 { [0; 32] } else { array(members, Member::Rand)? };
    Ok(Entry {
        rand,
        key: array(members, Member::PublicKey)?,
        request: bytes(members, Member::Request)?,
        response: bytes(members, Member::Response)?,
    })
}

/// The bytes of a member, which must be there once.
fn bytes(members: &[(Vec<u8>, Value)], member: Member) -> Result<Vec<u8>, Cause> {
    let mut found = members.iter().filter(|(name, _)| name == member.name().as_bytes());
    let (_, value) = found.next().ok_or(Cause::Missing(member))?;
    if found.next().is_some() {
        return Err(Cause::Repeated(member));
    }
    let Value::Text(text) = value else { return Err(Cause::Kind(member)) };
    base64::read(text).map_err(|fault| Cause::Base64(member, fault))
}

/// The same of a member that must have 32 bytes.
fn array(members: &[(Vec<u8>, Value)], member: Member) -> Result<[u8; 32], Cause> {
    bytes(members, member)?.try_into().map_err(|_| Cause::Length(member))
}

/// Writes the records of a text at the front of `out`, and tells how many they are. What follows
/// them stays, and all of it on a refusal.
pub fn read_into(text: &[u8], out: &mut [u8]) -> Result<usize, Refusal> {
    let pile = pile_of(&read(text).map_err(Cause::refusal)?);
    Ok(write::put(&pile, out)? / RECORD)
}

/// The records of these entries, one after the other.
pub fn pile_of(entries: &[Entry]) -> Vec<u8> {
    entries.iter().flat_map(Entry::record).collect()
}

/// The text of a report: no blanks, no escapes, the members in the draft's order, and no rand in
/// the first entry.
pub fn text(entries: &[Entry]) -> String {
    let entries: Vec<String> = entries.iter().enumerate().map(entry_text).collect();
    format!("{{\"responses\":[{}]}}", entries.join(","))
}

fn entry_text((place, entry): (usize, &Entry)) -> String {
    let members: Vec<String> = Member::ALL
        .into_iter()
        .filter(|member| place > 0 || *member != Member::Rand)
        .map(|member| {
            let bytes: &[u8] = match member {
                Member::Rand => &entry.rand,
                Member::PublicKey => &entry.key,
                Member::Request => &entry.request,
                Member::Response => &entry.response,
            };
            format!("\"{}\":\"{}\"", member.name(), base64::encode(bytes))
        })
        .collect();
    format!("{{{}}}", members.join(","))
}

/// The text of a pile that is a report.
pub fn write(pile: &[u8], answers: &[u8]) -> Result<String, NoReport> {
    report::check(pile, answers)?;
    let records = pile::read(pile, answers).expect("a report is a pile");
    let entries: Vec<Entry> = records.iter().map(|answered| of_record(answered.record)).collect();
    Ok(text(&entries))
}

/// What a record holds, which must be laid out as a record is.
fn of_record(record: Record) -> Entry {
    let (request, response) = record.packets().expect("a valid record is laid out as it must be");
    Entry {
        key: *record.key(),
        rand: *record.rand(),
        request: request.to_vec(),
        response: response.to_vec(),
    }
}

/// The text of the run that the cutter takes out of a text's records, and the places of the run's
/// first and last record among them.
pub fn cut(text: &[u8], answers: &[u8]) -> Result<((usize, usize), String), Refusal> {
    let pile = pile_of(&read(text).map_err(Cause::refusal)?);
    let mut run = vec![0; pile.len()];
    let (first, last) = report::cut(&pile, answers, &mut run)?;
    run.truncate((last + 1 - first) * RECORD);
    let written = write(&run, &answers[2 * first..2 * (last + 1)]);
    Ok(((first, last), written.expect("what is cut is a report")))
}

#[cfg(test)]
mod tests {
    use super::*;
    use crate::appendix;
    use crate::making::{pile_of as windows, Made};

    const KEY: &str = "AAAAAAAAAAAAAAAAAAAAAAAAAAAAAAAAAAAAAAAAAAA=";

    /// An entry with these members behind those that it needs.
    fn with(more: &str) -> String {
        format!(r#"{{"publicKey":"{KEY}","request":"Zg==","response":""{more}}}"#)
    }

    fn list(entries: &[String]) -> String {
        format!(r#"{{"responses":[{}]}}"#, entries.join(","))
    }

    fn refused(text: &str) -> Cause {
        read(text.as_bytes()).expect_err("it is refused")
    }

    #[test]
    fn the_draft_s_own_report_is_read() {
        let text = include_bytes!("../../vectors/malfeasance-report.json");
        let entries = read(text).unwrap();
        assert_eq!(pile_of(&entries), appendix::pile().pile);
        let Made { pile, answers } = appendix::pile();
        let written = write(&pile, &answers).unwrap();
        assert_eq!(read(written.as_bytes()), Ok(entries));
        let ((first, last), run) = cut(text, &answers).unwrap();
        assert_eq!((first, last), (0, 1));
        assert_eq!(pile_of(&read(run.as_bytes()).unwrap()), pile[..2 * RECORD]);
    }

    #[test]
    fn a_text_is_read_whatever_else_it_has() {
        let due = Entry { key: [0; 32], rand: [0; 32], request: b"f".to_vec(), response: vec![] };
        for more in [
            "",
            r#","rand":7"#,
            r#","rand":[],"rand":"x""#,
            r#","other":{"publicKey":1},"other":2"#,
            r#","Rand":1,"publickey":2,"":3,"rand ":4,"\ud800":5"#,
        ] {
            assert_eq!(read(list(&[with(more)]).as_bytes()), Ok(vec![due.clone()]), "{more}");
        }
        let text = format!(r#"{{"a":[],"respo\u006Eses":[{}],"a":0}}"#, with(""));
        assert_eq!(read(text.as_bytes()), Ok(vec![due.clone()]));
        let text = list(&[with("").replace("Zg==", r"\u005ag\u003D=").replace("Key", "\\u004bey")]);
        assert_eq!(read(text.as_bytes()), Ok(vec![due.clone()]));
        let rand = KEY.replacen("AA", r"\u002f\/", 1);
        let mut second = Entry { rand: [0; 32], ..due.clone() };
        second.rand[..2].copy_from_slice(&[0xff, 0xf0]);
        let text = list(&[with(""), with(&format!(r#","rand":"{rand}""#))]);
        assert_eq!(read(text.as_bytes()), Ok(vec![due, second]));
    }

    #[test]
    fn each_cause_has_its_texts() {
        let rand = format!(r#","rand":"{KEY}""#);
        let second = |entry: String| list(&[with(""), entry]);
        for (text, cause) in [
            ("[]".to_string(), Cause::Outermost),
            ("{}".to_string(), Cause::NoResponses),
            (r#"{"responses":[],"responses":[]}"#.to_string(), Cause::ManyResponses),
            (r#"{"responses":{}}"#.to_string(), Cause::ResponsesKind),
            (list(&["[]".to_string()]), Cause::EntryKind),
            (second(with("")), Cause::Missing(Member::Rand)),
            (second(with(&rand.repeat(2))), Cause::Repeated(Member::Rand)),
            (second(with(r#","rand":null"#)), Cause::Kind(Member::Rand)),
            (second(with(r#","rand":"Zg==""#)), Cause::Length(Member::Rand)),
            (list(&["{}".to_string()]), Cause::Missing(Member::PublicKey)),
            (list(&[with(r#","request":"""#)]), Cause::Repeated(Member::Request)),
            (
                list(&[with("").replace("Zg==", "Zg=")]),
                Cause::Base64(Member::Request, base64::Fault::Groups),
            ),
            (
                list(&[with("").replace("Zg==", "Zh==")]),
                Cause::Base64(Member::Request, base64::Fault::SpareBits),
            ),
            (list(&[]), Cause::NoEntry),
            (list(&vec![with(&rand); 17]), Cause::ManyEntries),
            (
                list(&[with("").replace("Zg==", &base64::encode(&[1; 2001]))]),
                Cause::Packet(Member::Request),
            ),
        ] {
            assert_eq!(refused(&text), cause, "{text}");
        }
    }

    /// 24 is told before 25, wherever it stands.
    #[test]
    fn the_whole_text_is_judged_before_its_size() {
        let rand = format!(r#","rand":"{KEY}""#);
        let long = with(&rand).replace("Zg==", &base64::encode(&[1; 2001]));
        let mut entries = vec![long; 40];
        assert_eq!(refused(&list(&entries)), Cause::ManyEntries);
        entries[39] = with("");
        assert_eq!(refused(&list(&entries)), Cause::Missing(Member::Rand));
        assert_eq!(refused(&(list(&entries) + "x")), Cause::Json(json::Fault::Behind));
    }

    #[test]
    fn a_report_is_written_and_read_back() {
        let Made { pile, answers } = windows(&[(1000, 10), (1500, 10), (1495, 1), (1400, 10)]);
        let text = write(&pile, &answers).unwrap();
        assert!(text.starts_with(r#"{"responses":[{"publicKey":"VVVV"#));
        assert!(text.contains(r#""},{"rand":"AQEB"#) && !text.contains([' ', '\n', '\\']));
        let mut out = vec![0xee; pile.len() + 1];
        assert_eq!(read_into(text.as_bytes(), &mut out), Ok(4));
        assert_eq!((&out[..pile.len()], out[pile.len()]), (&pile[..], 0xee));
        let short = &mut out[..pile.len() - 1];
        assert_eq!(read_into(text.as_bytes(), short), Err(Refusal::BufferTooShort));
        let ((first, last), run) = cut(text.as_bytes(), &answers).unwrap();
        assert_eq!((first, last), (2, 3));
        assert_eq!(read_into(run.as_bytes(), &mut out), Ok(2));
        assert_eq!(out[32..64], [0; 32]);
        assert_eq!(cut(text.as_bytes(), &[1; 7]), Err(Refusal::Pile));
        assert_eq!(cut(text.as_bytes(), &[0; 8]), Err(Refusal::NoContradiction));
    }

    /// 16 records with packets of 2,000 bytes: 87,609 letters.
    #[test]
    fn the_longest_report() {
        let entry =
            Entry { key: [1; 32], rand: [2; 32], request: vec![3; 2000], response: vec![4; 2000] };
        assert_eq!(text(&vec![entry; 16]).len(), 87_609);
    }
}
