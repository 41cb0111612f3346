//! Lists of servers as JSON, read into records.
//!
//! No buffer is cleared between runs.

use crate::run::Run;
use crate::sides::{work, Side, Subject, Work};
use crate::table::{count, microseconds, Table};
use independent::{base64, list_text};
use std::hint::black_box;
use trawlbeacon::{LISTED_ADDRESSES, LISTED_SERVERS, SERVER_LENGTH};

/// Bytes that are enough for the records of any list.
const ROOM: usize = LISTED_SERVERS * SERVER_LENGTH;

/// An address of a server, of each kind in turn.
fn address(server: usize, place: usize) -> String {
    let protocol = if place % 2 == 0 { "udp" } else { "tcp" };
    let host = match place / 2 % 3 {
        0 => format!("roughtime-{server}.example.com"),
        1 => format!("192.0.2.{server}"),
        _ => format!("[2001:db8::{server:x}:{place:x}]"),
    };
    format!(r#"{{"protocol":"{protocol}","address":"{host}:2002"}}"#)
}

fn server(place: usize) -> String {
    let key = base64::encode(&[place as u8; 32]);
    let addresses: Vec<String> = (0..LISTED_ADDRESSES).map(|at| address(place, at)).collect();
    format!(
        r#"{{"name":"Roughtime server {place}","version":1,"publicKeyType":"ed25519","publicKey":"{key}","addresses":[{}]}}"#,
        addresses.join(",")
    )
}

/// A list of so many servers with eight addresses each, all of which can be asked.
pub fn list(servers: usize) -> Vec<u8> {
    let servers: Vec<String> = (0..servers).map(server).collect();
    let rest = r#""sources":["https://www.example.org/list.json"],"reports":"https://www.example.net/report""#;
    format!(r#"{{"servers":[{}],{rest}}}"#, servers.join(",")).into_bytes()
}

/// Reading, by both sides, into a buffer that is long enough for any list.
pub fn read(text: &[u8]) -> [Work<'_>; 2] {
    let (mut out, mut there) = (vec![0; ROOM], vec![0; ROOM]);
    [
        work(move || trawlbeacon::read_servers(black_box(text), &mut out)),
        work(move || list_text::records(&list_text::read(black_box(text)), &mut there)),
    ]
}

/// Sees that both sides say the same of a text.
pub fn agree(text: &[u8]) {
    let (mut out, mut there) = (vec![0xee; ROOM], vec![0xee; ROOM]);
    let ours = trawlbeacon::read_servers(text, &mut out);
    let ours = ours.map(|read| (read.records, read.passed_over)).map_err(|no| no.code());
    let theirs = list_text::records(&list_text::read(text), &mut there).map_err(|no| no.code());
    assert_eq!(ours, theirs, "both say the same of a list");
    assert!(out == there, "both read the same records");
}

/// Lists of 1 to 64 servers, of which the longest has a limit.
pub fn part(run: &mut Run) {
    let title = "lists of servers with eight addresses each, read; a ratio is ours by the \
                 independent reader's";
    let mut table = Table::new("lists", title, &["Servers", "bytes", "µs", "ratio"]);
    for servers in [1, 4, 16, LISTED_SERVERS] {
        let text = list(servers);
        agree(&text);
        let name = format!("a list of {servers} servers, read");
        let mut subject = Subject::of_two(name, text.len(), read(&text));
        if servers == LISTED_SERVERS {
            subject = subject.held(Side::Independent, "lists_read");
        }
        let measured = run.time(subject);
        let times = [microseconds(measured.ours()), measured.ratio_text(Side::Independent)];
        table.row([servers.to_string(), count(text.len())].into_iter().chain(times).collect());
    }
    run.put(table);
}
