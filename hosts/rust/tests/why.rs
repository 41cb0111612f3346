//! What the front end says is wrong with a text that is no report: a cause wherever the library
//! tells 24 or 25, that of the independent reader, and for JSON a byte at which it is wrong.

#[path = "../src/bin/trawl/keys.rs"]
#[allow(dead_code)]
mod keys;
#[path = "../src/bin/trawl/names.rs"]
#[allow(dead_code)]
mod names;
#[path = "../src/bin/trawl/status.rs"]
#[allow(dead_code)]
mod status;
mod support;
#[path = "../src/bin/trawl/why.rs"]
#[allow(dead_code)]
mod why;

use independent::json::Fault;
use independent::report_text::{self, Cause};
use std::collections::BTreeMap;
use support::json_values::Style;
use support::no_json::{no_json, NO_JSON};
use support::texts::{Text, Tree, WRONG_SIZE, WRONG_TEXT};
use support::{vectors, Xorshift};
use trawlbeacon::{MOST_RECORDS, RECORD_LENGTH};
use why::Why;

/// Of each kind so many texts are made.
const TEXTS: usize = 300;

/// What must be said of a cause: words that no other kind of cause has. A text that is no JSON, and
/// a string that is no base64, may be wrong in two ways, and which is met first hangs on the reader.
fn due(cause: Cause) -> &'static str {
    match cause {
        Cause::Json(Fault::Utf8(_)) => "this is not UTF-8",
        Cause::Json(Fault::ByteOrderMark) => "byte order mark",
        Cause::Json(Fault::Nothing | Fault::Unfinished) => "the text ends within its value",
        Cause::Json(Fault::Depth) => "deeper than 16",
        Cause::Json(Fault::Control) => "no such letter stands in a string",
        Cause::Json(Fault::Behind) => "something stands behind the value",
        Cause::Json(_) => "no JSON at byte ",
        Cause::Outermost => "its outermost value is no object",
        Cause::NoResponses => "\"responses\" of the report is missing",
        Cause::ManyResponses => "\"responses\" of the report is there more than once",
        Cause::ResponsesKind => "\"responses\" is no list",
        Cause::EntryKind => " is no object",
        Cause::Missing(_) => " is missing",
        Cause::Repeated(_) => " is there more than once",
        Cause::Kind(_) => " is no string",
        Cause::Base64(..) => " is no base64: ",
        Cause::Length(_) => ", and should have 32",
        Cause::NoEntry => "it has 0 entries",
        Cause::ManyEntries => " entries, and a report has 1 to 16",
        Cause::Packet(_) => ", and a packet has at most 2000",
    }
}

/// The byte must be one that cannot stand there: up to it the text could go on to be JSON, so that
/// what stands before it is wrong only in that it ends. A word and a letter of several bytes are told
/// of by their first byte.
fn is_the_first(text: &[u8], at: usize) -> bool {
    let goes_on = |end: usize| match why::no_report(&text[..end]) {
        Some(Why::Json(_, what)) => what == "the text ends within its value",
        _ => true,
    };
    at <= text.len() && (at.saturating_sub(4)..=at).any(goes_on)
}

struct Comparison {
    random: Xorshift,
    causes: BTreeMap<Cause, usize>,
    texts: usize,
}

impl Comparison {
    fn ask(&mut self, Text { bytes, .. }: Text) {
        let mut pile = vec![0; MOST_RECORDS * RECORD_LENGTH];
        let code = trawlbeacon::read_report(&bytes, &mut pile).err().map(|why| why.code());
        let (told, read) = (why::no_report(&bytes), report_text::read(&bytes));
        let name = String::from_utf8_lossy(&bytes);
        assert_eq!(told.is_some(), code.is_some(), "{told:?}, {code:?}: {name}");
        if let (Some(told), Err(cause)) = (told, read) {
            assert!(told.to_string().contains(due(cause)), "{told}, {cause:?}: {name}");
            if let Why::Json(at, _) = told {
                assert!(is_the_first(&bytes, at), "{told}: {name}");
            }
            *self.causes.entry(cause).or_insert(0) += 1;
        }
        self.texts += 1;
    }
}

#[test]
fn each_cause_is_told() {
    let mut comparison =
        Comparison { random: Xorshift::new(0x5eed_3701), causes: BTreeMap::new(), texts: 0 };
    for round in 0..TEXTS {
        let mut random = Xorshift::new(comparison.random.next() | 1);
        let random = &mut random;
        for fault in NO_JSON {
            let tree = Tree::rich(random);
            comparison.ask(no_json(random, tree, fault));
        }
        for wrong in WRONG_TEXT.into_iter().chain(WRONG_SIZE) {
            let mut tree = Tree::rich(random);
            tree.spoil(random, wrong);
            let style = Style::random(random);
            comparison.ask(tree.text(random, style));
        }
        let mut tree = Tree::rich(random);
        if round % 2 == 0 {
            tree.as_deep_as_may_be(random);
        }
        let style = Style::random(random);
        comparison.ask(tree.text(random, style));
    }
    for cause in Cause::all() {
        assert!(comparison.causes.contains_key(&cause), "no text was wrong by {cause:?}");
    }
    let (texts, causes) = (comparison.texts, comparison.causes.len());
    println!("why a text is no report: {texts} texts, {causes} causes");
}

/// What other programs write in the place of plain UTF-8 is called by its name.
#[test]
fn other_encodings_are_named() {
    let told = |bytes: &[u8]| why::no_report(bytes).map(|why| why.to_string()).unwrap_or_default();
    let text = vectors("malfeasance-report.json");
    let marked = ["\u{feff}", &text].concat();
    assert!(told(marked.as_bytes()).contains("byte 0: it begins with a byte order mark"));
    for order in [u16::to_le_bytes, u16::to_be_bytes] {
        for text in [&text[..], &marked[..], "\u{feff}時", "\u{feff}"] {
            let wide: Vec<u8> = text.encode_utf16().flat_map(order).collect();
            assert!(why::is_utf16(&wide) && told(&wide).contains("UTF-16"), "{text}");
        }
    }
    for bytes in [&[][..], b"{}", &[0; 4096], &[1, 0], text.as_bytes()] {
        assert!(!why::is_utf16(bytes), "{bytes:?}");
    }
}

/// Every byte of the draft's own report is changed in turn.
#[test]
fn a_changed_byte_is_found() {
    let text = vectors("malfeasance-report.json");
    assert_eq!(why::no_report(text.as_bytes()), None);
    for at in 0..text.len() {
        let mut changed = text.clone().into_bytes();
        changed[at] = b'\x01';
        let told = why::no_report(&changed).map(|why| why.to_string()).unwrap_or_default();
        assert!(told.contains(&format!("no JSON at byte {at}: ")), "byte {at}: {told}");
    }
}
