//! Lists of servers as JSON (draft 19, section 8.3; house rules), written: the members in the
//! draft's order, no blanks, and no escape that is not needed.

use crate::address;
use crate::base64;
use crate::list_text::{KEY_TYPE, MOST_ADDRESSES, MOST_SERVERS};
use crate::refusal::Refusal;
use crate::utf8;

/// A string as JSON has it (RFC 8259, section 7), where it is UTF-8: a backslash before a quote or
/// a backslash, `\u00` and two small digits for what is below 0x20, and all else as it is.
pub fn quoted(text: &[u8]) -> Option<Vec<u8>> {
    utf8::check(text).ok()?;
    let mut out = vec![b'"'];
    for byte in text {
        match byte {
            b'"' | b'\\' => out.extend([b'\\', *byte]),
            0x00..=0x1f => out.extend(format!("\\u{byte:04x}").into_bytes()),
            _ => out.push(*byte),
        }
    }
    out.push(b'"');
    Some(out)
}

/// The lines of a text, each of which must end with a line feed.
fn lines(text: &[u8]) -> Option<Vec<&[u8]>> {
    if text.is_empty() {
        return Some(vec![]);
    }
    Some(text.strip_suffix(b"\n")?.split(|byte| *byte == b'\n').collect())
}

/// Values with commas between them, in brackets.
fn list(values: &[Vec<u8>]) -> Vec<u8> {
    [&b"["[..], &values.join(&b','), b"]"].concat()
}

/// The address of a line: `udp` or `tcp`, a blank, a host and a port.
fn address(line: &[u8]) -> Option<Vec<u8>> {
    let (protocol, address) = (line.get(..3)?, line.get(4..)?);
    let known = protocol == b"udp" || protocol == b"tcp";
    if !known || line[3] != b' ' || !address::is_address(address) {
        return None;
    }
    let address = quoted(address)?;
    Some([&b"{\"protocol\":\""[..], protocol, b"\",\"address\":", &address, b"}"].concat())
}

/// One server that is to be written.
#[derive(Clone, Copy, Debug, PartialEq, Eq)]
pub struct Written<'a> {
    /// What it is called.
    pub name: &'a [u8],
    /// The highest version that it speaks.
    pub version: u32,
    /// Its long-term key.
    pub key: &'a [u8; 32],
    /// A line for each address.
    pub addresses: &'a [u8],
}

impl Written<'_> {
    /// Its text, with how many addresses it has, or nothing where the name is no UTF-8 or a line is
    /// wrong.
    fn text(&self) -> Option<(Vec<u8>, usize)> {
        let name = quoted(self.name)?;
        let lines = lines(self.addresses)?;
        let addresses = lines.iter().map(|line| address(line)).collect::<Option<Vec<_>>>()?;
        let (version, key) = (self.version.to_string(), base64::encode(self.key));
        let text = [
            b"{\"name\":",
            &name[..],
            b",\"version\":",
            version.as_bytes(),
            b",\"publicKeyType\":\"",
            KEY_TYPE.as_bytes(),
            b"\",\"publicKey\":\"",
            key.as_bytes(),
            b"\",\"addresses\":",
            &list(&addresses),
            b"}",
        ];
        Some((text.concat(), addresses.len()))
    }
}

/// One server's object. The refusals are 24 and 25.
pub fn server(server: &Written) -> Result<Vec<u8>, Refusal> {
    let (text, addresses) = server.text().ok_or(Refusal::ReportText)?;
    if addresses > MOST_ADDRESSES {
        return Err(Refusal::ReportSize);
    }
    Ok(text)
}

/// What a whole list is written of, one after the other: 32 bytes a key, and names and lines of
/// addresses by their lengths.
#[derive(Clone, Copy, Debug, PartialEq, Eq)]
pub struct Parts<'a> {
    /// The keys.
    pub keys: &'a [u8],
    /// The highest version that each server speaks. There are as many servers as these.
    pub versions: &'a [u32],
    /// The names, and how many bytes each has.
    pub names: &'a [u8],
    /// See `names`.
    pub name_lengths: &'a [u32],
    /// The lines of addresses, and how many bytes those of each server have.
    pub addresses: &'a [u8],
    /// See `addresses`.
    pub address_lengths: &'a [u32],
    /// A line for each source.
    pub sources: &'a [u8],
    /// Where reports go, or nothing.
    pub reports: &'a [u8],
}

/// The parts of these lengths, where they are all of the bytes.
fn cut<'a>(bytes: &'a [u8], lengths: &[u32]) -> Option<Vec<&'a [u8]>> {
    let mut rest = bytes;
    let mut parts = Vec::new();
    for length in lengths {
        let length = usize::try_from(*length).ok().filter(|length| *length <= rest.len())?;
        let (part, behind) = rest.split_at(length);
        parts.push(part);
        rest = behind;
    }
    rest.is_empty().then_some(parts)
}

impl<'a> Parts<'a> {
    /// The servers, where all lengths fit.
    fn servers(&self) -> Option<Vec<Written<'a>>> {
        let count = self.versions.len();
        let (names, addresses) =
            (cut(self.names, self.name_lengths)?, cut(self.addresses, self.address_lengths)?);
        if names.len() != count || addresses.len() != count || self.keys.len() != 32 * count {
            return None;
        }
        let server = |place: usize| Written {
            name: names[place],
            version: self.versions[place],
            key: self.keys[32 * place..][..32].try_into().expect("they are whole"),
            addresses: addresses[place],
        };
        Some((0..count).map(server).collect())
    }
}

/// A URL as it is written.
fn url(url: &[u8]) -> Option<Vec<u8>> {
    quoted(url).filter(|_| address::is_https(url))
}

/// A whole list. The refusals are 21, 24 and 25.
pub fn list_of(parts: &Parts) -> Result<Vec<u8>, Refusal> {
    let servers = parts.servers().ok_or(Refusal::List)?;
    let texts = || {
        let servers = servers.iter().map(Written::text).collect::<Option<Vec<_>>>()?;
        let sources = lines(parts.sources)?.into_iter().map(url).collect::<Option<Vec<_>>>()?;
        let reports = if parts.reports.is_empty() { None } else { Some(url(parts.reports)?) };
        Some((servers, sources, reports))
    };
    let (servers, sources, reports) = texts().ok_or(Refusal::ReportText)?;
    let within = (1..=MOST_SERVERS).contains(&servers.len())
        && servers.iter().all(|(_, addresses)| *addresses <= MOST_ADDRESSES);
    if !within {
        return Err(Refusal::ReportSize);
    }
    let servers: Vec<Vec<u8>> = servers.into_iter().map(|(text, _)| text).collect();
    let mut text = [b"{\"servers\":", &list(&servers)[..]].concat();
    if !sources.is_empty() {
        text.extend([b",\"sources\":", &list(&sources)[..]].concat());
    }
    if let Some(url) = reports {
        text.extend([b",\"reports\":", &url[..]].concat());
    }
    text.push(b'}');
    Ok(text)
}

#[cfg(test)]
mod tests {
    use super::*;
    use crate::json::{self, Value};
    use crate::list_text;

    const KEY: &[u8; 32] = &[7; 32];

    #[test]
    fn a_string_is_read_back() {
        for text in ["", "a", "\"\\/", "\0\n\u{1f} \u{7f}\u{80}\u{e9}\u{20ac}\u{1f600}"] {
            let quoted = quoted(text.as_bytes()).unwrap();
            assert_eq!(json::read(&quoted, 0), Ok(Value::Text(text.as_bytes().to_vec())));
        }
        assert_eq!(quoted(b"a\"\n\x1f\\\x7f").unwrap(), b"\"a\\\"\\u000a\\u001f\\\\\x7f\"");
        assert_eq!((quoted(b"\xff"), quoted(b"\xed\xa0\x80")), (None, None));
    }

    #[test]
    fn a_server_in_the_draft_s_order() {
        let one = Written { name: b"a\"", version: 1, key: KEY, addresses: b"" };
        let due = format!(
            r#"{{"name":"a\"","version":1,"publicKeyType":"ed25519","publicKey":"{}","addresses":[]}}"#,
            base64::encode(KEY)
        );
        assert_eq!(server(&one), Ok(due.clone().into_bytes()));
        let addresses = b"udp a.example:2002\ntcp [::1]:2002\n";
        let due = due.replace(
            "[]",
            r#"[{"protocol":"udp","address":"a.example:2002"},{"protocol":"tcp","address":"[::1]:2002"}]"#,
        );
        assert_eq!(server(&Written { addresses, ..one }), Ok(due.into_bytes()));
        for wrong in
            ["a:1\n", "udp a:1", "udp  a:1\n", "UDP a:1\n", "udp a:1\n\n", "\n", "udp\ta:1\n"]
        {
            let addresses = wrong.as_bytes();
            assert_eq!(
                server(&Written { addresses, ..one }),
                Err(Refusal::ReportText),
                "{wrong:?}"
            );
        }
        assert_eq!(server(&Written { name: b"\x80", ..one }), Err(Refusal::ReportText));
        let addresses = "udp a:1\n".repeat(9);
        let many = Written { addresses: addresses.as_bytes(), ..one };
        assert_eq!(server(&many), Err(Refusal::ReportSize));
        assert_eq!(server(&Written { name: b"\x80", ..many }), Err(Refusal::ReportText));
    }

    #[test]
    fn a_list_is_read_back_and_refused_in_order() {
        let (keys, names) = ([KEY.as_slice(), &[8; 32]].concat(), b"alderbirch");
        let parts = Parts {
            keys: &keys,
            versions: &[1, 2_147_483_660],
            names,
            name_lengths: &[5, 5],
            addresses: b"udp a:1\n",
            address_lengths: &[8, 0],
            sources: b"https://a/list\nhttps://b\n",
            reports: b"https://a/reports",
        };
        let text = list_of(&parts).unwrap();
        let read = list_text::read(&text).unwrap();
        assert_eq!((read.servers.len(), read.askable().len()), (2, 1));
        assert_eq!(
            (&read.servers[1].name[..], &read.servers[1].key[..]),
            (&b"birch"[..], &[8; 32][..])
        );
        assert_eq!(read.sources, [&b"https://a/list"[..], b"https://b"]);
        assert_eq!(read.reports.as_deref(), Some(&b"https://a/reports"[..]));
        let bare = Parts { sources: b"", reports: b"", ..parts };
        assert!(
            list_of(&bare).unwrap().ends_with(b"]}]}")
                || list_of(&bare).unwrap().ends_with(b"[]}]}")
        );
        for wrong in [
            Parts { keys: &keys[1..], ..parts },
            Parts { versions: &[1], ..parts },
            Parts { name_lengths: &[5, 6], ..parts },
            Parts { name_lengths: &[5, 4], ..parts },
            Parts { name_lengths: &[10], ..parts },
            Parts { name_lengths: &[u32::MAX, 11], ..parts },
            Parts { address_lengths: &[8, 0, 0], ..parts },
        ] {
            let wrong = Parts { sources: b"x", ..wrong };
            assert_eq!(list_of(&wrong), Err(Refusal::List), "{wrong:?}");
        }
        let none = Parts {
            keys: b"",
            versions: &[],
            names: b"",
            name_lengths: &[],
            addresses: b"",
            address_lengths: &[],
            ..parts
        };
        assert_eq!(list_of(&none), Err(Refusal::ReportSize));
        assert_eq!(list_of(&Parts { reports: b"http://a", ..none }), Err(Refusal::ReportText));
        assert_eq!(list_of(&Parts { sources: b"https://a", ..parts }), Err(Refusal::ReportText));
        let (versions, lengths) = (vec![1; 65], vec![0; 65]);
        let many = Parts {
            keys: &[3; 65 * 32],
            versions: &versions,
            names: b"",
            name_lengths: &lengths,
            addresses: b"",
            address_lengths: &lengths,
            ..parts
        };
        assert_eq!(list_of(&many), Err(Refusal::ReportSize));
    }
}
