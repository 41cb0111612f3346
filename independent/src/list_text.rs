//! Lists of servers as JSON (draft 19, section 8.3; house rules): read, and what is in them, by
//! place.
//!
//! A text is refused with 24 where it is no list in this form, and with 25 where it is one that has
//! no server or too many of them, or too many addresses of one. Then comes 36, where it has nothing
//! at the place that is asked for, and 19. Beside 24 and 25 stands the cause, so that a test can
//! tell whether it met each of them.

use crate::address;
use crate::base64;
use crate::hash;
use crate::json::{self, Value};
use crate::refusal::Refusal;
use crate::report_text::MOST_DEPTH;
use crate::utf8;
use crate::write;
use crate::VERSION;

/// The most servers of a list.
pub const MOST_SERVERS: usize = 64;

/// The most addresses of a server.
pub const MOST_ADDRESSES: usize = 8;

/// The one type of keys that is known here.
pub const KEY_TYPE: &str = "ed25519";

/// A member that means something.
#[derive(Clone, Copy, Debug, PartialEq, Eq, PartialOrd, Ord)]
pub enum Member {
    /// Of the list: its servers.
    Servers,
    /// Where newer lists are; it may be missing.
    Sources,
    /// Where reports are sent to; it may be missing.
    Reports,
    /// Of a server: what it is called.
    Name,
    /// The highest version that it speaks.
    Version,
    /// What kind of key it has.
    KeyType,
    /// Its long-term key.
    PublicKey,
    /// Where it is.
    Addresses,
    /// Of an address: how it is asked.
    Protocol,
    /// A host and a port.
    Address,
}

impl Member {
    /// All of them.
    pub const ALL: [Member; 10] = [
        Member::Servers,
        Member::Sources,
        Member::Reports,
        Member::Name,
        Member::Version,
        Member::KeyType,
        Member::PublicKey,
        Member::Addresses,
        Member::Protocol,
        Member::Address,
    ];

    /// Its name.
    pub fn name(self) -> &'static str {
        match self {
            Member::Servers => "servers",
            Member::Sources => "sources",
            Member::Reports => "reports",
            Member::Name => "name",
            Member::Version => "version",
            Member::KeyType => "publicKeyType",
            Member::PublicKey => "publicKey",
            Member::Addresses => "addresses",
            Member::Protocol => "protocol",
            Member::Address => "address",
        }
    }

    /// Whether it may be missing.
    pub fn optional(self) -> bool {
        matches!(self, Member::Sources | Member::Reports)
    }
}

/// Why a text is refused.
#[derive(Clone, Copy, Debug, PartialEq, Eq, PartialOrd, Ord)]
pub enum Cause {
    /// It is not JSON, or nests too deep.
    Json(json::Fault),
    /// The outermost value is no object.
    Outermost,
    /// A server is no object.
    ServerKind,
    /// An address is no object.
    AddressKind,
    /// A source is no string.
    SourceKind,
    /// A member is missing.
    Missing(Member),
    /// It is there more than once.
    Repeated(Member),
    /// It is no list, no string or no number, where it must be one.
    Kind(Member),
    /// A version has a fraction or an exponent.
    NoInteger,
    /// A name, an address or a URL has half of a pair of surrogates: it is no text.
    Surrogate(Member),
    /// A key is no base64.
    Base64(base64::Fault),
    /// A protocol is neither `tcp` nor `udp`.
    OtherProtocol,
    /// An address is no host and port.
    NoAddress,
    /// A source, or where reports go, is no URL of HTTPS, or too long.
    NoUrl(Member),
    /// There is no server.
    NoServer,
    /// There are more than 64.
    ManyServers,
    /// A server has more than 8 addresses.
    ManyAddresses,
}

impl Cause {
    /// The refusal that it leads to.
    pub fn refusal(self) -> Refusal {
        match self {
            Cause::NoServer | Cause::ManyServers | Cause::ManyAddresses => Refusal::ReportSize,
            _ => Refusal::ReportText,
        }
    }

    /// Every cause that there is.
    pub fn all() -> Vec<Cause> {
        let whole = [
            Cause::Outermost,
            Cause::ServerKind,
            Cause::AddressKind,
            Cause::SourceKind,
            Cause::NoInteger,
            Cause::OtherProtocol,
            Cause::NoAddress,
            Cause::NoUrl(Member::Sources),
            Cause::NoUrl(Member::Reports),
            Cause::NoServer,
            Cause::ManyServers,
            Cause::ManyAddresses,
        ];
        let texts = [Member::Name, Member::Address, Member::Sources, Member::Reports];
        let needed = Member::ALL.into_iter().filter(|member| !member.optional());
        let of_members = Member::ALL.map(|member| [Cause::Repeated(member), Cause::Kind(member)]);
        let json = json::Fault::all().into_iter().map(Cause::Json);
        json.chain(whole)
            .chain(needed.map(Cause::Missing))
            .chain(of_members.into_iter().flatten())
            .chain(texts.map(Cause::Surrogate))
            .chain(base64::Fault::ALL.map(Cause::Base64))
            .collect()
    }
}

/// An address of a server.
#[derive(Clone, Debug, PartialEq, Eq)]
pub struct Address {
    /// Whether it is asked over TCP, and not over UDP.
    pub tcp: bool,
    /// A host and a port, with a colon between them.
    pub text: Vec<u8>,
}

/// A server of a list.
#[derive(Clone, Debug, PartialEq, Eq)]
pub struct Server {
    /// What it is called, in UTF-8.
    pub name: Vec<u8>,
    /// The highest version that it speaks, as it is written: an integer.
    pub version: Vec<u8>,
    /// What kind of key it has.
    pub key_type: Vec<u8>,
    /// Its long-term key, of any number of bytes.
    pub key: Vec<u8>,
    /// Where it is.
    pub addresses: Vec<Address>,
}

impl Server {
    /// Its key, where it can be asked by who knows version 1 alone: its highest version is that
    /// one, and its key one of Ed25519.
    pub fn askable(&self) -> Option<[u8; 32]> {
        let known = self.key_type == KEY_TYPE.as_bytes()
            && self.version == VERSION.to_string().into_bytes();
        self.key[..].try_into().ok().filter(|_| known)
    }
}

/// A list.
#[derive(Clone, Debug, PartialEq, Eq)]
pub struct Listed {
    /// Its servers, in order.
    pub servers: Vec<Server>,
    /// Where newer lists are.
    pub sources: Vec<Vec<u8>>,
    /// Where reports are sent to.
    pub reports: Option<Vec<u8>>,
}

impl Listed {
    /// The servers that can be asked, in order.
    pub fn askable(&self) -> Vec<&Server> {
        self.servers.iter().filter(|server| server.askable().is_some()).collect()
    }

    /// Their records, as the house's lists have them: a key, and its SRV value.
    pub fn records(&self) -> Vec<u8> {
        let keys = self.servers.iter().filter_map(Server::askable);
        keys.flat_map(|key| [key, hash::srv_value(&key)].concat()).collect()
    }
}

/// The list that a text is. All that leads to 24 is looked for in the whole of it before anything
/// that leads to 25.
pub fn read(text: &[u8]) -> Result<Listed, Cause> {
    let outermost = json::read(text, MOST_DEPTH).map_err(Cause::Json)?;
    let Value::Object(members) = outermost else { return Err(Cause::Outermost) };
    let servers = list(needed(&members, Member::Servers)?, Member::Servers)?;
    let sources = match found(&members, Member::Sources)? {
        Some(value) => list(value, Member::Sources)?,
        None => &[],
    };
    let reports = found(&members, Member::Reports)?;
    within_limits(Listed {
        servers: servers.iter().map(server).collect::<Result<_, _>>()?,
        sources: sources.iter().map(source).collect::<Result<_, _>>()?,
        reports: reports.map(|value| url(value, Member::Reports)).transpose()?,
    })
}

/// The list, where its servers are 1 to 64 and none has more than 8 addresses.
fn within_limits(listed: Listed) -> Result<Listed, Cause> {
    match listed.servers.len() {
        0 => return Err(Cause::NoServer),
        1..=MOST_SERVERS => (),
        _ => return Err(Cause::ManyServers),
    }
    if listed.servers.iter().any(|server| server.addresses.len() > MOST_ADDRESSES) {
        return Err(Cause::ManyAddresses);
    }
    Ok(listed)
}

type Members = [(Vec<u8>, Value)];

/// The value of a member, which must not be there twice.
fn found(members: &Members, member: Member) -> Result<Option<&Value>, Cause> {
    let mut found = members.iter().filter(|(name, _)| name == member.name().as_bytes());
    let first = found.next().map(|(_, value)| value);
    match found.next() {
        Some(_) => Err(Cause::Repeated(member)),
        None => Ok(first),
    }
}

/// The value of a member that must be there.
fn needed(members: &Members, member: Member) -> Result<&Value, Cause> {
    found(members, member)?.ok_or(Cause::Missing(member))
}

fn list(value: &Value, member: Member) -> Result<&[Value], Cause> {
    match value {
        Value::List(values) => Ok(values),
        _ => Err(Cause::Kind(member)),
    }
}

fn string(value: &Value, member: Member) -> Result<&[u8], Cause> {
    match value {
        Value::Text(text) => Ok(text),
        _ => Err(Cause::Kind(member)),
    }
}

/// A string that is a text. The reader of JSON leaves half a pair of surrogates as three bytes that
/// are no UTF-8, and nothing else that is none.
fn text(value: &Value, member: Member) -> Result<&[u8], Cause> {
    let text = string(value, member)?;
    utf8::check(text).map_err(|_| Cause::Surrogate(member))?;
    Ok(text)
}

fn server(value: &Value) -> Result<Server, Cause> {
    let Value::Object(members) = value else { return Err(Cause::ServerKind) };
    let addresses = list(needed(members, Member::Addresses)?, Member::Addresses)?;
    let key = string(needed(members, Member::PublicKey)?, Member::PublicKey)?;
    Ok(Server {
        name: text(needed(members, Member::Name)?, Member::Name)?.to_vec(),
        version: integer(needed(members, Member::Version)?)?,
        key_type: string(needed(members, Member::KeyType)?, Member::KeyType)?.to_vec(),
        key: base64::read(key).map_err(Cause::Base64)?,
        addresses: addresses.iter().map(address).collect::<Result<_, _>>()?,
    })
}

/// A number with no fraction and no exponent.
fn integer(value: &Value) -> Result<Vec<u8>, Cause> {
    let Value::Number(number) = value else { return Err(Cause::Kind(Member::Version)) };
    if number.iter().any(|byte| matches!(byte, b'.' | b'e' | b'E')) {
        return Err(Cause::NoInteger);
    }
    Ok(number.clone())
}

fn address(value: &Value) -> Result<Address, Cause> {
    let Value::Object(members) = value else { return Err(Cause::AddressKind) };
    let tcp = match string(needed(members, Member::Protocol)?, Member::Protocol)? {
        b"tcp" => true,
        b"udp" => false,
        _ => return Err(Cause::OtherProtocol),
    };
    let text = text(needed(members, Member::Address)?, Member::Address)?.to_vec();
    if !address::is_address(&text) {
        return Err(Cause::NoAddress);
    }
    Ok(Address { tcp, text })
}

fn source(value: &Value) -> Result<Vec<u8>, Cause> {
    match value {
        Value::Text(_) => url(value, Member::Sources),
        _ => Err(Cause::SourceKind),
    }
}

fn url(value: &Value, member: Member) -> Result<Vec<u8>, Cause> {
    let url = text(value, member)?.to_vec();
    if !address::is_https(&url) {
        return Err(Cause::NoUrl(member));
    }
    Ok(url)
}

/// What a call that asks for one place of a list answers: the bytes, which are put at the front of
/// `out`, or the first refusal of 24, 25, 36 and 19.
fn put<T>(
    read: &Result<Listed, Cause>,
    at: impl FnOnce(&Listed) -> Option<(T, Vec<u8>)>,
    out: &mut [u8],
) -> Result<(T, usize), Refusal> {
    let listed = read.as_ref().map_err(|cause| cause.refusal())?;
    let (told, bytes) = at(listed).ok_or(Refusal::ListPlace)?;
    Ok((told, write::put(&bytes, out)?))
}

/// Writes the records of the servers that can be asked at the front of `out`, and tells how many
/// there are, and how many servers were passed over. `read` is what [`read`] says of the text.
pub fn records(read: &Result<Listed, Cause>, out: &mut [u8]) -> Result<(usize, usize), Refusal> {
    let told = |listed: &Listed| {
        let count = listed.askable().len();
        Some(((count, listed.servers.len() - count), listed.records()))
    };
    put(read, told, out).map(|(counts, _)| counts)
}

/// The name of a server that can be asked, by its place among these; how many bytes it has.
pub fn name(read: &Result<Listed, Cause>, place: usize, out: &mut [u8]) -> Result<usize, Refusal> {
    let told = |listed: &Listed| Some(((), listed.askable().get(place)?.name.clone()));
    put(read, told, out).map(|(_, length)| length)
}

/// An address of such a server, by its own place; whether it is one of TCP, and how many bytes it
/// has.
pub fn address_at(
    read: &Result<Listed, Cause>,
    place: usize,
    which: usize,
    out: &mut [u8],
) -> Result<(bool, usize), Refusal> {
    let told = |listed: &Listed| {
        let address = listed.askable().get(place)?.addresses.get(which)?.clone();
        Some((address.tcp, address.text))
    };
    put(read, told, out)
}

/// A source, by its place.
pub fn source_at(
    read: &Result<Listed, Cause>,
    place: usize,
    out: &mut [u8],
) -> Result<usize, Refusal> {
    let told = |listed: &Listed| Some(((), listed.sources.get(place)?.clone()));
    put(read, told, out).map(|(_, length)| length)
}

/// Where reports go.
pub fn reports(read: &Result<Listed, Cause>, out: &mut [u8]) -> Result<usize, Refusal> {
    put(read, |listed| Some(((), listed.reports.clone()?)), out).map(|(_, length)| length)
}

#[cfg(test)]
mod tests {
    use super::*;

    const KEY: &str = "AAAAAAAAAAAAAAAAAAAAAAAAAAAAAAAAAAAAAAAAAAA=";

    fn with(more: &str) -> String {
        format!(
            r#"{{"name":"a","version":1,"publicKeyType":"ed25519","publicKey":"{KEY}","addresses":[]{more}}}"#
        )
    }

    fn listed(servers: &[String], more: &str) -> String {
        format!(r#"{{"servers":[{}]{more}}}"#, servers.join(","))
    }

    fn at(addresses: &str) -> String {
        with("").replace("[]", addresses)
    }

    fn one() -> Server {
        Server {
            name: b"a".to_vec(),
            version: b"1".to_vec(),
            key_type: b"ed25519".to_vec(),
            key: vec![0; 32],
            addresses: vec![],
        }
    }

    fn refused(text: &str) -> Cause {
        read(text.as_bytes()).expect_err(text)
    }

    /// Appendix A.
    #[test]
    fn the_draft_s_own_list_is_read() {
        let read = read(include_bytes!("../../vectors/server-list.json"));
        let listed = read.as_ref().unwrap();
        let names: Vec<&[u8]> = listed.servers.iter().map(|server| &server.name[..]).collect();
        let due: [&[u8]; 2] =
            [b"example.com Roughtime server", b"A UDP-only server specified with IP addresses"];
        assert_eq!(names, due);
        let addresses: Vec<(bool, &[u8])> = listed
            .servers
            .iter()
            .flat_map(|server| &server.addresses)
            .map(|address| (address.tcp, &address.text[..]))
            .collect();
        let due: [(bool, &[u8]); 4] = [
            (false, b"roughtime.example.com:2002"),
            (true, b"roughtime.example.com:2002"),
            (false, b"192.0.2.33:2002"),
            (false, b"[2001:db8::2:33]:2002"),
        ];
        assert_eq!(addresses, due);
        assert_eq!(listed.sources.len(), 2);
        assert_eq!(listed.sources[1], b"https://www.example.org/roughtime/ecosystem.json");
        let at = listed.reports.as_deref();
        assert_eq!(at, Some(&b"https://www.example.net/roughtime/malfeasance"[..]));
        let mut out = [0xee; 129];
        assert_eq!(records(&read, &mut out), Ok((2, 0)));
        let key = base64::decode("2O3mkkheDExCuhG+ZNIoWmO/IdCdLzADgUn8SnC4hME=").unwrap();
        assert_eq!((&out[..32], out[128]), (&key[..], 0xee));
        assert_eq!(out[96..128], hash::srv_value(&out[64..96].try_into().unwrap()));
        assert_eq!(records(&read, &mut out[..127]), Err(Refusal::BufferTooShort));
        assert_eq!(address_at(&read, 1, 1, &mut out), Ok((false, 21)));
        assert_eq!(address_at(&read, 1, 2, &mut out), Err(Refusal::ListPlace));
        assert_eq!(name(&read, 2, &mut out), Err(Refusal::ListPlace));
        assert_eq!(source_at(&read, 2, &mut []), Err(Refusal::ListPlace));
        assert_eq!(source_at(&read, 1, &mut []), Err(Refusal::BufferTooShort));
        assert_eq!(reports(&read, &mut out), Ok(45));
    }

    #[test]
    fn a_text_is_read_whatever_else_it_has() {
        let due = Listed { servers: vec![one()], sources: vec![], reports: None };
        for (text, due) in [
            (listed(&[with("")], ""), due.clone()),
            (listed(&[with(r#","other":{"name":1},"other":2"#)], r#","a":[],"a":0"#), due.clone()),
            (listed(&[with(r#","Name":1,"":3,"\ud800":5"#)], r#","Sources":7"#), due.clone()),
            (listed(&[with("").replace("name", "\\u006eame")], r#","sources":[]"#), due),
        ] {
            assert_eq!(read(text.as_bytes()), Ok(due), "{text}");
        }
        let text = with("").replace("\"a\"", r#""\ud83d\ude00\u00e9\n""#);
        let read = read(listed(&[text], "").as_bytes()).unwrap();
        assert_eq!(read.servers[0].name, "\u{1f600}\u{e9}\n".as_bytes());
    }

    /// Those are passed over, and the others stay in order.
    #[test]
    fn servers_that_cannot_be_asked() {
        let key = |number: u8| base64::encode(&[number; 32]);
        let servers: Vec<String> = [
            with("").replace(KEY, &key(1)),
            with("").replace("\"version\":1", "\"version\":2"),
            with("").replace("\"version\":1", "\"version\":2147483660"),
            with("").replace("\"version\":1", "\"version\":-1"),
            with("").replace("\"version\":1", "\"version\":11111111111111111111111111111111111"),
            with("").replace("ed25519", "Ed25519"),
            with("").replace("ed25519", "\\ud800"),
            with("").replace("ed25519", "\\u0065d25519").replace(KEY, &key(2)),
            with("").replace(KEY, "AAAA"),
            with("").replace(KEY, ""),
        ]
        .into();
        let read = read(listed(&servers, "").as_bytes());
        let mut out = [0; 128];
        assert_eq!(records(&read, &mut out), Ok((2, 8)));
        assert_eq!((out[0], out[64]), (1, 2));
    }

    #[test]
    fn each_cause_has_its_texts() {
        let udp = |address: &str| at(&format!(r#"[{{"protocol":"udp","address":"{address}"}}]"#));
        let whole = |server: String| listed(&[server], "");
        let more = |more: &str| listed(&[with("")], more);
        for (text, cause) in [
            ("[]".to_string(), Cause::Outermost),
            ("{}".to_string(), Cause::Missing(Member::Servers)),
            (r#"{"servers":{}}"#.to_string(), Cause::Kind(Member::Servers)),
            (more(r#","servers":[]"#), Cause::Repeated(Member::Servers)),
            (whole("[]".to_string()), Cause::ServerKind),
            (whole("{}".to_string()), Cause::Missing(Member::Addresses)),
            (whole(with(r#","name":"a""#)), Cause::Repeated(Member::Name)),
            (whole(with("").replace("\"a\"", "7")), Cause::Kind(Member::Name)),
            (whole(with("").replace("\"a\"", r#""\ud800""#)), Cause::Surrogate(Member::Name)),
            (whole(with("").replace(":1,", ":1.0,")), Cause::NoInteger),
            (whole(with("").replace(":1,", ":1e0,")), Cause::NoInteger),
            (whole(with("").replace(":1,", ":\"1\",")), Cause::Kind(Member::Version)),
            (whole(with("").replace("AAA=", "AAA")), Cause::Base64(base64::Fault::Groups)),
            (whole(at("{}")), Cause::Kind(Member::Addresses)),
            (whole(at("[[]]")), Cause::AddressKind),
            (whole(at("[{}]")), Cause::Missing(Member::Protocol)),
            (whole(udp("a:1").replace("udp", "UDP")), Cause::OtherProtocol),
            (whole(udp("a:65536")), Cause::NoAddress),
            (whole(udp("[::1%1]:1")), Cause::NoAddress),
            (whole(udp(r"a:1\ud800")), Cause::Surrogate(Member::Address)),
            (more(r#","sources":"https://a""#), Cause::Kind(Member::Sources)),
            (more(r#","sources":[7]"#), Cause::SourceKind),
            (more(r#","sources":["http://a"]"#), Cause::NoUrl(Member::Sources)),
            (more(r#","reports":["https://a"]"#), Cause::Kind(Member::Reports)),
            (more(r#","reports":null"#), Cause::Kind(Member::Reports)),
            (more(r#","reports":"https://u@a""#), Cause::NoUrl(Member::Reports)),
            (listed(&[], ""), Cause::NoServer),
            (listed(&vec![with(""); 65], ""), Cause::ManyServers),
            (
                whole(udp("a:1").replace(
                    "[{",
                    &format!("[{}{{", r#"{"protocol":"tcp","address":"a:1"},"#.repeat(8)),
                )),
                Cause::ManyAddresses,
            ),
        ] {
            assert_eq!(refused(&text), cause, "{text}");
            assert!(Cause::all().contains(&cause));
        }
    }

    /// 24 is told before 25, wherever it stands.
    #[test]
    fn the_whole_text_is_judged_before_its_size() {
        let mut servers = vec![with(""); 80];
        assert_eq!(refused(&listed(&servers, "")), Cause::ManyServers);
        servers[79] = with("").replace("\"a\"", "null");
        assert_eq!(refused(&listed(&servers, "")), Cause::Kind(Member::Name));
        assert_eq!(refused(&listed(&[], r#","reports":7"#)), Cause::Kind(Member::Reports));
        assert!(read(listed(&vec![with(""); 64], "").as_bytes()).is_ok());
    }
}
