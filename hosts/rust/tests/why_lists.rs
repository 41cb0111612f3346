//! What the front end says is wrong with a text that is no list of servers: a cause wherever the
//! library tells 24 or 25, that of the independent reader, and none where it reads a list. And which
//! servers it says are passed over.

#[path = "../src/bin/trawl/keys.rs"]
#[allow(dead_code)]
mod keys;
#[path = "../src/bin/trawl/names.rs"]
#[allow(dead_code)]
mod names;
#[path = "../src/bin/trawl/status.rs"]
#[allow(dead_code)]
mod status;
mod support;
#[path = "../src/bin/trawl/why.rs"]
#[allow(dead_code)]
mod why;
#[path = "../src/bin/trawl/why_list.rs"]
mod why_list;

use independent::json::Fault;
use independent::list_text::{self, Cause, Member};
use std::collections::BTreeMap;
use support::list_groups::GROUPS;
use support::{vectors, Xorshift};
use trawlbeacon::{read_servers, Refusal};

/// Of each group so many texts are made.
const TEXTS: usize = 1_000;

/// What must be said of a cause: words that no other kind of cause has. A text that is no JSON may be
/// wrong in two ways, and which is met first hangs on the reader.
fn due(cause: Cause) -> String {
    let member = |member: Member, what: &str| format!("\"{}\"{what}", member.name());
    match cause {
        Cause::Json(Fault::Depth) => "deeper than 16".into(),
        Cause::Json(_) => "no JSON at byte ".into(),
        Cause::Outermost => "its outermost value is no object".into(),
        Cause::ServerKind | Cause::AddressKind => " is no object".into(),
        Cause::SourceKind => " is no string".into(),
        Cause::Missing(_) => " is missing".into(),
        Cause::Repeated(_) => " is there more than once".into(),
        Cause::Kind(Member::Version) | Cause::NoInteger => " is no integer".into(),
        Cause::Kind(known @ (Member::Servers | Member::Sources)) => member(known, " is no list"),
        Cause::Kind(Member::Addresses) => "\"addresses\" of server ".into(),
        Cause::Kind(Member::Reports) => "\"reports\" is no string".into(),
        Cause::Kind(known) => member(known, " of "),
        Cause::Surrogate(_) => " has half a pair of surrogates".into(),
        Cause::Base64(_) => " is no base64: ".into(),
        Cause::OtherProtocol => " is neither tcp nor udp".into(),
        Cause::NoAddress => " is no host, colon and port: ".into(),
        Cause::NoUrl(_) => " is no URL of https: ".into(),
        Cause::NoServer => "it has 0 servers".into(),
        Cause::ManyServers => " servers, and a list has 1 to 64".into(),
        Cause::ManyAddresses => " addresses, and a server has at most 8".into(),
    }
}

/// Several faults may be met in another order, so that of those groups only that there is a cause is
/// asked.
#[test]
fn a_cause_is_told_wherever_there_is_one() {
    let (mut random, mut told) = (Xorshift::new(0x5eed_0805), BTreeMap::new());
    for (group, _, make) in GROUPS {
        for _ in 0..TEXTS {
            let text = make(&mut random).bytes;
            let read = list_text::read(&text);
            let why = why_list::no_list(&text).map(|why| why.to_string());
            let shown = || format!("{group}: {}", String::from_utf8_lossy(&text));
            assert_eq!(why.is_some(), read.is_err(), "{}: {why:?}", shown());
            let code = read_servers(&text, &mut [0; 4096]).map_err(Refusal::code).err();
            assert_eq!(
                code,
                read.as_ref().err().map(|cause| cause.refusal().code()),
                "{}",
                shown()
            );
            let (Some(why), Err(cause)) = (why, &read) else {
                let listed = read.expect("it is a list");
                let over = listed.servers.len() - listed.askable().len();
                assert_eq!(why_list::passed_over(&text).len(), over, "{}", shown());
                continue;
            };
            if group == "no list, by one fault" {
                assert!(why.contains(&due(*cause)), "{}\n  {cause:?}: {why}", shown());
                *told.entry(format!("{cause:?}")).or_insert(0) += 1;
            }
            // Nothing of the text steers a terminal.
            assert!(!why.chars().any(char::is_control), "{why:?}");
        }
    }
    println!("causes of lists with one fault, told by the front end: {told:?}");
    assert!(told.len() > 25, "{}", told.len());
}

#[test]
fn the_draft_s_list_is_one() {
    let text = vectors("server-list.json");
    assert_eq!(why_list::no_list(text.as_bytes()), None);
    assert!(why_list::passed_over(text.as_bytes()).is_empty());
    let cut = &text[..700];
    let why = why_list::no_list(cut.as_bytes()).map(|why| why.to_string());
    assert_eq!(why.as_deref(), Some("no JSON at byte 700: the text ends within its value"));
}
