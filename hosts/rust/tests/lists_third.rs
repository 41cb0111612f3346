//! Lists of servers as JSON, read by the independent implementation and by Python: the whole list or
//! the code must be the same, and what is due where that is known.
//!
//! The independent reader is what the library is compared with, so that it is held to somebody else
//! first. Without a Python, only to what is due.

mod support;

use independent::list_text::{self, Cause};
use std::collections::BTreeMap;
use support::list_groups::GROUPS;
use support::list_python::{self, Python};
use support::list_trees::{Due, Text};
use support::{vectors, Xorshift};

/// Of each group a tenth of what the library is asked.
const PART: usize = 10;

/// Each cause of a refusal must be met so often.
const LEAST: usize = 15;

struct Comparison {
    causes: BTreeMap<Cause, usize>,
    differing: Vec<String>,
    lists: usize,
    texts: usize,
}

impl Comparison {
    fn differs(&mut self, text: &[u8], how: &str) {
        if self.differing.len() < 10 {
            self.differing.push(format!("{how}\n  for {}", String::from_utf8_lossy(text)));
        }
    }

    /// Holds the independent side to what is due.
    fn due(&mut self, Text { bytes, due }: &Text) -> String {
        self.texts += 1;
        let read = list_text::read(bytes);
        match &read {
            Ok(_) => self.lists += 1,
            Err(cause) => *self.causes.entry(*cause).or_insert(0) += 1,
        }
        let right = match (due, &read) {
            (Due::List(due), Ok(read)) => due == read,
            (Due::Code(code), Err(cause)) => cause.refusal().code() == *code,
            (Due::Unknown, _) => true,
            _ => false,
        };
        if !right {
            self.differs(bytes, &format!("due is {due:?}, and read was {read:?}"));
        }
        list_python::said(&read)
    }

    /// Holds it to Python.
    fn third(&mut self, texts: &[Text], python: &mut Python) {
        let bytes: Vec<Vec<u8>> = texts.iter().map(|text| text.bytes.clone()).collect();
        let told = python.round(&bytes).expect("Python answers");
        for (text, told) in bytes.iter().zip(told) {
            let said = list_python::said(&list_text::read(text));
            if said != told {
                self.differs(text, &format!("Python says {told}\nand independent {said}"));
            }
        }
    }
}

#[test]
fn python_reads_the_same() {
    let mut random = Xorshift::new(0x5eed_0801);
    let mut seen = Comparison { causes: BTreeMap::new(), differing: vec![], lists: 0, texts: 0 };
    let mut python = Python::start();
    let appendix = Text { bytes: vectors("server-list.json").into_bytes(), due: Due::Unknown };
    let mut texts = vec![appendix];
    for (name, count, group) in GROUPS {
        texts.extend((0..count / PART).map(|_| group(&mut random)));
        println!("{:>8} texts {name}", count / PART);
    }
    for round in texts.chunks(500) {
        round.iter().for_each(|text| {
            seen.due(text);
        });
        if let Some(python) = &mut python {
            seen.third(round, python);
        }
    }
    println!("{} texts, of which {} are lists", seen.texts, seen.lists);
    for (cause, count) in &seen.causes {
        println!("{count:>8} {cause:?}");
    }
    match python {
        Some(_) => println!("{} texts read by Python, too", seen.texts),
        None => println!("LEFT OUT: the comparison with Python, since there is no python3 here"),
    }
    assert!(seen.differing.is_empty(), "{}", seen.differing.join("\n"));
    assert!(seen.lists > 1_000, "there were {} lists", seen.lists);
    for cause in Cause::all() {
        let count = seen.causes.get(&cause).copied().unwrap_or(0);
        assert!(count >= LEAST, "{cause:?} was met {count} times, and {LEAST} are needed");
    }
}
