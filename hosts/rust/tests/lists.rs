//! Lists of servers as JSON, read by the proved library and by the independent implementation: every
//! code, number and byte must be the same, of the records and of each part by its place.
//!
//! Most texts are made so that it is known what must be said of them, and then both sides are held
//! to it as well. `lists_third` holds the independent side to Python.

mod support;

use independent::list_text::{self, Cause, Listed};
use std::time::{Duration, Instant};
use support::answers::{Answer, Both, Written};
use support::list_answers::{buffer, Addressed, Asked, Records};
use support::list_groups::GROUPS;
use support::list_trees::{Due, Text};
use support::met::Met;
use support::{counted, vectors};
use trawlbeacon::{Refusal, ServerList, LISTED_SERVERS, SERVER_LENGTH};

const RECORDS: &str = "records";
const NAMES: &str = "names";
const ADDRESSES: &str = "addresses";
const SOURCES: &str = "sources";
const REPORTS: &str = "reports";

/// Each cause of a refusal must be met so often.
const LEAST: usize = 100;

type Comparison = Met<Cause>;

impl Comparison {
    fn ask(&mut self, Text { bytes, due }: Text) {
        // The text starts anywhere.
        let start = self.random.below(16);
        let shifted = [vec![0; start], bytes].concat();
        let text = &shifted[start..];
        let read = list_text::read(text);
        match &read {
            Ok(listed) => self.read(listed.askable().len()),
            Err(cause) => self.refused(*cause),
        }
        let asked = Asked { text, read: &read };
        self.whole(asked, &due);
        self.parts(asked, &due);
        if self.random.once_in(40) {
            self.in_one(asked);
        }
        self.texts += 1;
        self.bytes += text.len();
    }

    /// What a text is called where the sides differ about it.
    fn shown<'a>(&self, text: &'a [u8]) -> impl Fn() -> String + 'a {
        let (group, number) = (self.group, self.texts);
        move || format!("text {number} ({group}): {}", String::from_utf8_lossy(text))
    }

    /// The records of a list, and what must be in the buffer where that is known.
    fn whole(&mut self, asked: Asked, due: &Due) {
        let needed = asked.read.as_ref().map_or(100, |listed| listed.records().len());
        let before = buffer(&mut self.random, needed);
        let both = asked.records(&before);
        let shown = self.shown(asked.text);
        self.tally.answer(RECORDS, &both, code_due(due, needed, &before), &shown);
        if let (Due::List(listed), Ok(Records(count, over))) = (due, &both.ours.answer) {
            let records = listed.records();
            let right = both.ours.buffer[..records.len()] == records[..]
                && both.ours.buffer[records.len()..] == before[records.len()..]
                && (*count, count + over) == (listed.askable().len(), listed.servers.len());
            if !right {
                self.tally.differs(format!("{}\n  the records are not what is due", shown()));
            }
        }
    }

    fn parts(&mut self, asked: Asked, due: &Due) {
        let nothing = Listed { servers: vec![], sources: vec![], reports: None };
        let listed = asked.read.as_ref().unwrap_or(&nothing);
        let askable = listed.askable();
        let place = self.place(askable.len());
        let server = askable.get(place);
        let which = self.place(server.map_or(0, |server| server.addresses.len()));
        let source = self.place(listed.sources.len());
        let name = server.map(|server| &server.name);
        let address = server.and_then(|server| server.addresses.get(which));
        let needed = name.map(Vec::len);
        self.part(NAMES, asked, due, needed, |buffer| asked.name(place, buffer));
        let needed = address.map(|address| address.text.len());
        self.part(ADDRESSES, asked, due, needed, |buffer| asked.address(place, which, buffer));
        let needed = listed.sources.get(source).map(Vec::len);
        self.part(SOURCES, asked, due, needed, |buffer| asked.source(source, buffer));
        let needed = listed.reports.as_ref().map(Vec::len);
        self.part(REPORTS, asked, due, needed, |buffer| asked.reports(buffer));
    }

    /// One of so many places, the next behind them, or any.
    fn place(&mut self, count: usize) -> usize {
        let within = self.random.below(count.max(1));
        let any = self.random.next() as usize;
        self.random.pick(&[within, within, within, within, within, count, any])
    }

    fn part<T>(
        &mut self,
        column: &'static str,
        asked: Asked,
        due: &Due,
        needed: Option<usize>,
        ask: impl FnOnce(&[u8]) -> Both<Written<T>>,
    ) where
        Written<T>: Answer,
    {
        let before = buffer(&mut self.random, needed.unwrap_or(100));
        let both = ask(&before);
        let code = match needed {
            Some(needed) => code_due(due, needed, &before),
            None => code_due(due, 0, &before).map(|code| if code == 0 { 36 } else { code }),
        };
        self.tally.answer(column, &both, code, self.shown(asked.text));
    }

    /// All of a list in one value of the host's.
    fn in_one(&mut self, asked: Asked) {
        let list = ServerList::read(asked.text);
        let right = match (&list, asked.read) {
            (Ok(list), Ok(listed)) => is_all_of(list, listed) && is_written(list),
            (Err(refusal), Err(cause)) => refusal.code() == cause.refusal().code(),
            _ => false,
        };
        if !right {
            self.tally.differs(format!("{}\n  the whole is {list:?}", self.shown(asked.text)()));
        }
    }
}

/// The code that is due where a list needs so much room.
fn code_due(due: &Due, needed: usize, before: &[u8]) -> Option<u32> {
    match due {
        Due::List(_) => Some(if before.len() < needed { 19 } else { 0 }),
        Due::Code(code) => Some(*code),
        Due::Unknown => None,
    }
}

fn is_all_of(list: &ServerList, listed: &Listed) -> bool {
    let askable = listed.askable();
    let servers = list.servers.len() == askable.len()
        && list.servers.iter().zip(&askable).all(|(server, due)| {
            let addresses: Vec<Addressed> = server.addresses.iter().map(told).collect();
            let texts: Vec<&[u8]> =
                server.addresses.iter().map(|address| address.host_and_port.as_bytes()).collect();
            let due_texts: Vec<&[u8]> =
                due.addresses.iter().map(|address| &address.text[..]).collect();
            let due_addresses: Vec<Addressed> = due
                .addresses
                .iter()
                .map(|address| Addressed(address.tcp, address.text.len()))
                .collect();
            server.name.as_bytes() == due.name
                && server.key[..] == due.key[..]
                && (addresses, texts) == (due_addresses, due_texts)
        });
    let sources: Vec<&[u8]> = list.sources.iter().map(|url| url.as_bytes()).collect();
    let reports = list.reports.as_ref().map(|url| url.as_bytes());
    servers
        && sources == listed.sources.iter().map(|url| &url[..]).collect::<Vec<_>>()
        && reports == listed.reports.as_deref()
        && list.passed_over == listed.servers.len() - askable.len()
        && list.records() == listed.records()
}

fn told(address: &trawlbeacon::Address) -> Addressed {
    Addressed(address.protocol == trawlbeacon::Protocol::Tcp, address.host_and_port.len())
}

/// What is written of a list is read as that list; one with no server is none.
fn is_written(list: &ServerList) -> bool {
    let back = list.write().and_then(|text| ServerList::read(text.as_bytes()));
    match list.servers.len() {
        0 => back == Err(Refusal::Entries),
        _ => back == Ok(ServerList { passed_over: 0, ..list.clone() }),
    }
}

#[test]
fn both_sides_read_the_same() {
    let mut seen = Comparison::new(&[RECORDS, NAMES, ADDRESSES, SOURCES, REPORTS], 0x5eed_0802);
    for (name, count, group) in GROUPS {
        seen.group = name;
        for _ in 0..count {
            let text = group(&mut seen.random);
            seen.ask(text);
        }
        println!("{count:>8} texts {name}");
    }
    seen.tell();
    seen.tally.no_difference();
    seen.tally.at_least(2_000, RECORDS, [0, 19, 24, 25]);
    for column in [NAMES, ADDRESSES, SOURCES, REPORTS] {
        seen.tally.at_least(500, column, [0, 19, 24, 25, 36]);
    }
    seen.often(LEAST, &Cause::all(), 0..=3);
    counted(seen.texts, "texts to be read as lists of servers");
}

/// Appendix A, as the draft has it.
#[test]
fn the_draft_s_own_list() {
    let text = vectors("server-list.json");
    let list = ServerList::read(text.as_bytes()).unwrap();
    assert!(is_all_of(&list, &list_text::read(text.as_bytes()).unwrap()) && is_written(&list));
    assert_eq!(list.servers[0].name, "example.com Roughtime server");
    assert_eq!((list.servers.len(), list.sources.len(), list.passed_over), (2, 2, 0));
}

/// What would be another list is not written.
#[test]
fn a_list_of_the_host_s_own_is_written_as_it_is() {
    let text = vectors("server-list.json");
    let list = ServerList::read(text.as_bytes()).unwrap();
    let with = |change: fn(&mut ServerList)| {
        let mut list = list.clone();
        change(&mut list);
        list.write().map_err(Refusal::code)
    };
    let smuggled = |list: &mut ServerList| {
        list.servers[0].addresses[0].host_and_port = "a:1\nudp b:2".to_string();
    };
    assert_eq!(with(smuggled), Err(24));
    assert_eq!(with(|list| list.sources[0] = "https://a\nhttps://b".to_string()), Err(24));
    assert_eq!(with(|list| list.sources[0] = String::new()), Err(24));
    assert_eq!(with(|list| list.reports = Some(String::new())), Err(24));
    assert_eq!(with(|list| list.servers.clear()), Err(25));
    let named = |list: &mut ServerList| list.servers[0].name = "\u{1}\u{0}\"\\".repeat(1_000);
    assert_eq!(with(named).map(|text| text.matches("\\u0001").count()), Ok(1_000));
    let many = |list: &mut ServerList| {
        let one = list.servers[0].clone();
        list.servers = vec![one; LISTED_SERVERS];
        for server in &mut list.servers {
            let at = server.addresses[0].clone();
            server.addresses = vec![at; 8];
            server.addresses[0].host_and_port = "a:1".to_string();
        }
    };
    assert!(with(many).is_ok());
}

/// A reader that looks back, or starts over, would take hours for some of these.
#[test]
fn the_time_grows_with_the_length_of_a_text() {
    let mut out = vec![0; LISTED_SERVERS * SERVER_LENGTH];
    let mut slowest = (Duration::ZERO, String::new());
    for (what, text) in long_texts(1 << 20) {
        let due = list_text::read(&text).map_err(|cause| cause.refusal().code());
        let started = Instant::now();
        let read = trawlbeacon::read_servers(&text, &mut out);
        let took = started.elapsed();
        let read = read.map(|read| read.records + read.passed_over).map_err(Refusal::code);
        assert_eq!(read, due.map(|listed| listed.servers.len()), "{what}");
        assert!(took < Duration::from_secs(5), "{what}: {took:?}");
        println!("{took:>12.1?} for a mebibyte of {what}");
        slowest = slowest.max((took, what));
    }
    println!("texts of a mebibyte: none took longer than {:?}, {}", slowest.0, slowest.1);
}

/// Texts of about so many bytes, right ones and wrong ones, with much of one thing.
fn long_texts(length: usize) -> Vec<(String, Vec<u8>)> {
    let server = |name: &str, addresses: &str| {
        let key = "A".repeat(43) + "=";
        let kind = r#""version":1,"publicKeyType":"ed25519","publicKey":"#;
        format!(r#"{{"name":"{name}",{kind}"{key}","addresses":[{addresses}]}}"#)
    };
    let many = |one: &str| vec![one; length / (one.len() + 1)].join(",");
    let whole = |servers: &str, more: &str| format!(r#"{{"servers":[{servers}]{more}}}"#);
    let address = r#"{"protocol":"udp","address":"a.example:2002"}"#;
    let (one, half) = (server("a", address), length / 2);
    let texts = [
        ("servers", whole(&many(&server("a", "")), "")),
        ("addresses of one server", whole(&server("a", &many(address)), "")),
        ("one name", whole(&server(&"a".repeat(length), ""), "")),
        ("escapes in one name", whole(&server(&"\\ud83d\\ude00".repeat(length / 12), ""), "")),
        ("halves of surrogates", whole(&server(&"\\ud83d".repeat(length / 6), ""), "")),
        ("one address", whole(&server("a", &address.replace("a.", &"a.".repeat(half))), "")),
        (
            "colons in an address",
            whole(&server("a", &address.replace("a.", &":".repeat(length))), ""),
        ),
        ("sources", whole(&one, &format!(r#","sources":[{}]"#, many("\"https://a.example/\"")))),
        ("one source", whole(&one, &format!(r#","sources":["https://a/{}"]"#, "b".repeat(length)))),
        ("members nobody knows", whole(&one, &format!(",{}", many("\"servers \":{}")))),
        (
            "members of a server",
            whole(&one.replace("{\"name", &format!("{{{},\"name", many("\"a\":[]"))), ""),
        ),
        ("one key", whole(&one.replace("AAAA", &"A".repeat(length / 4 * 4)), "")),
        ("one version", whole(&one.replace(":1,", &format!(":{},", "1".repeat(length))), "")),
        ("blanks", " ".repeat(length) + &whole(&one, "")),
    ];
    texts.into_iter().map(|(what, text)| (what.to_string(), text.into_bytes())).collect()
}
