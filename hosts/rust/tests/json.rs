//! Reports as JSON, read by the proved library and by the independent implementation: every code,
//! number and byte must be the same.
//!
//! Most texts are made so that it is known what must be said of them, and then both sides are held
//! to it as well. Whether a text is JSON at all, Python is asked too, where there is one.

mod support;

use independent::lengthy;
use independent::pile::RECORD;
use independent::report_text::{self, Cause};
use std::time::{Duration, Instant};
use support::answers::{Answer, Bad, Both, Written};
use support::json_values::Style;
use support::met::Met;
use support::no_json::{self, NO_JSON};
use support::python::Python;
use support::text_answers::{self as asking, Records};
use support::texts::{self, Due, Text, Tree, WRONG_SIZE, WRONG_TEXT};
use support::{counted, Xorshift};
use trawlbeacon::{Refusal, MOST_RECORDS};

const READ: &str = "read";

/// Each cause of a refusal must be met so often.
const LEAST: usize = 200;

type Comparison = Met<Cause>;

impl Comparison {
    fn ask(&mut self, Text { bytes, due }: Text) -> Vec<u8> {
        // The text starts anywhere.
        let start = self.random.below(16);
        let shifted = [vec![0; start], bytes].concat();
        let text = &shifted[start..];
        let read = report_text::read(text);
        let needed = read.as_ref().map_or(100, |entries| entries.len() * RECORD);
        if let Err(cause) = &read {
            self.refused(*cause);
        }
        let before = asking::buffer(&mut self.random, needed);
        let both = asking::read(text, &read, &before);
        self.same(text, &both, &due, &before);
        if let Ok(Records(count)) = both.ours.answer {
            self.read(count);
        }
        self.texts += 1;
        self.bytes += text.len();
        text.to_vec()
    }

    /// Both sides must say the same, and what is due where that is known, and leave the same.
    fn same(&mut self, text: &[u8], both: &Both<Written<Records>>, due: &Due, before: &[u8]) {
        let (group, number) = (self.group, self.texts);
        let name = || format!("text {number} ({group}): {}", String::from_utf8_lossy(text));
        let due = match due {
            Due::Records(records) if before.len() < records.len() => refused(19, before),
            Due::Records(records) => Written {
                answer: Ok(Records(records.len() / RECORD)),
                buffer: [records, &before[records.len()..]].concat(),
            },
            Due::Code(code) => refused(*code, before),
            Due::Unknown => return self.tally.answer(READ, both, None, name),
        };
        self.tally.answer(READ, both, Some(due.code()), name);
        if due != both.ours {
            self.tally.differs(format!("{}\n  the buffer is not what is due", name()));
        }
    }
}

/// A refusal that leaves the buffer as it was.
fn refused(code: u32, before: &[u8]) -> Written<Records> {
    Written { answer: Err(Bad { code, at: None }), buffer: before.to_vec() }
}

/// As they are written by the independent side.
fn as_written(random: &mut Xorshift) -> Text {
    let count = 1 + random.below(MOST_RECORDS);
    let entries = texts::entries(random, count);
    let due = Due::Records(report_text::pile_of(&entries));
    Text { bytes: report_text::text(&entries).into_bytes(), due }
}

/// In every form that is allowed.
fn rich(random: &mut Xorshift) -> Text {
    let style = Style::random(random);
    Tree::rich(random).text(random, style)
}

/// Nested as deep as they may be.
fn deepest(random: &mut Xorshift) -> Text {
    let mut tree = Tree::rich(random);
    tree.as_deep_as_may_be(random);
    let style = Style::random(random);
    tree.text(random, style)
}

/// With something long to be skipped, or much of it.
fn long(random: &mut Xorshift) -> Text {
    let mut tree = Tree::rich(random);
    tree.lengthen(random);
    let style = Style::random(random);
    tree.text(random, style)
}

/// With one fault that leads to 24.
fn wrong_text(random: &mut Xorshift) -> Text {
    wrong(random, &WRONG_TEXT, 1)
}

/// With one that leads to 25.
fn wrong_size(random: &mut Xorshift) -> Text {
    wrong(random, &WRONG_SIZE, 1)
}

/// With several of both kinds: 24 counts, wherever it stands.
fn several(random: &mut Xorshift) -> Text {
    let count = 2 + random.below(3);
    wrong(random, &[&WRONG_SIZE[..], &WRONG_TEXT, &WRONG_SIZE].concat(), count)
}

fn wrong(random: &mut Xorshift, faults: &[texts::Wrong], count: usize) -> Text {
    let mut tree = Tree::rich(random);
    for _ in 0..count {
        let fault = random.pick(faults);
        tree.spoil(random, fault);
    }
    let style = Style::random(random);
    tree.text(random, style)
}

/// That are no JSON. Some have another fault too.
fn no_json(random: &mut Xorshift) -> Text {
    let mut tree = Tree::rich(random);
    if random.once_in(4) {
        let fault = random.pick(&[&WRONG_SIZE[..], &WRONG_TEXT].concat());
        tree.spoil(random, fault);
    }
    let fault = random.pick(&NO_JSON);
    no_json::no_json(random, tree, fault)
}

fn damaged(random: &mut Xorshift) -> Text {
    let Text { bytes, .. } = if random.once_in(3) { as_written(random) } else { rich(random) };
    no_json::damaged(random, bytes)
}

type Group = (&'static str, usize, fn(&mut Xorshift) -> Text);

const GROUPS: [Group; 10] = [
    ("as they are written", 4_000, as_written),
    ("in every form that is allowed", 16_000, rich),
    ("with long things to be skipped, or many", 1_000, long),
    ("nested 16 deep", 3_000, deepest),
    ("no report, by one fault", 26_000, wrong_text),
    ("with no entry, too many, or too long a packet", 6_000, wrong_size),
    ("with several faults", 6_000, several),
    ("no JSON, by one fault", 20_000, no_json),
    ("with some bytes changed, added, left out or moved", 12_000, damaged),
    ("of random bytes, or of pieces of JSON", 6_000, no_json::noise),
];

#[test]
fn both_sides_read_the_same() {
    let mut seen = Comparison::new(&[READ], 0x5eed_0701);
    let mut python = Python::start();
    for (name, count, group) in GROUPS {
        seen.group = name;
        for _ in 0..count {
            let text = group(&mut seen.random);
            let text = seen.ask(text);
            if let Some(python) = &mut python {
                python.ask(seen.texts - 1, &text);
            }
        }
        println!("{count:>8} texts {name}");
    }
    seen.tell();
    match python {
        Some(python) => told_by(python),
        None => println!("LEFT OUT: the comparison with Python, since there is no python3 here"),
    }
    seen.tally.no_difference();
    seen.tally.at_least(2_000, READ, [0, 19, 24, 25]);
    seen.often(LEAST, &Cause::all(), 1..=MOST_RECORDS);
    counted(seen.texts, "texts to be read as reports");
}

/// What Python said, which is printed: what is its own is not hidden.
fn told_by(mut python: Python) {
    python.finish();
    println!("whether it is JSON, by Python's letter (see json_third.py) and by independent:");
    for ((letter, said), count) in &python.met {
        println!("{count:>8} {letter}  {said}");
    }
    assert!(python.differing.is_empty(), "{}", python.differing.join("\n"));
}

/// A reader that looks back, or starts over, would take hours for some of these.
#[test]
fn the_time_grows_with_the_length_of_a_text() {
    let mut out = vec![0; MOST_RECORDS * RECORD];
    let mut slowest = (Duration::ZERO, "");
    for (what, text) in lengthy::texts(1 << 20) {
        let due = report_text::read(&text).map_err(|cause| cause.refusal().code());
        let started = Instant::now();
        let read = trawlbeacon::read_report(&text, &mut out);
        let took = started.elapsed();
        assert_eq!(read.map_err(Refusal::code), due.map(|entries| entries.len()), "{what}");
        assert!(took < Duration::from_secs(5), "{what}: {took:?}");
        slowest = slowest.max((took, what));
        println!("{took:>12.1?} for a mebibyte of {what}");
    }
    println!("texts of a mebibyte: none took longer than {:?}, {}", slowest.0, slowest.1);
}
