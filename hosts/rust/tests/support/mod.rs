//! What the tests share: bytes that are the same in every run, the files in vectors/, packets right
//! and wrong, and the comparison of the two sides.

// Each test file is a crate of its own that takes this module in, and none of them needs all of it.
#![allow(dead_code)]

pub mod answers;
pub mod batch_calls;
pub mod clocks;
pub mod cut_answers;
pub mod damage;
pub mod due;
pub mod guarded;
pub mod json_values;
pub mod list_answers;
pub mod list_groups;
pub mod list_parts;
pub mod list_python;
pub mod list_trees;
pub mod list_words;
pub mod met;
pub mod no_json;
pub mod packets;
pub mod pairs;
pub mod pile_answers;
pub mod piles;
pub mod published;
pub mod python;
pub mod replies;
pub mod rfc_8032;
pub mod signed;
pub mod signed_answers;
pub mod signing;
pub mod tally;
pub mod text_answers;
pub mod texts;
pub mod trees;
pub mod walks;

use std::fs;
use std::hint::black_box;
use std::path::Path;
use std::time::{Duration, Instant};

/// Marsaglia's xorshift64: no good randomness, but bytes without a pattern that a hash could be
/// right on by luck, and the same in every run, so that what fails once fails again.
pub struct Xorshift(u64);

impl Xorshift {
    /// The seed must not be 0, which xorshift never leaves.
    pub fn new(seed: u64) -> Self {
        assert_ne!(seed, 0);
        Xorshift(seed)
    }

    pub fn next(&mut self) -> u64 {
        self.0 ^= self.0 << 13;
        self.0 ^= self.0 >> 7;
        self.0 ^= self.0 << 17;
        self.0
    }

    pub fn bytes(&mut self, length: usize) -> Vec<u8> {
        let mut bytes: Vec<u8> =
            (0..(length + 7) / 8).flat_map(|_| self.next().to_le_bytes()).collect();
        bytes.truncate(length);
        bytes
    }

    pub fn array(&mut self) -> [u8; 32] {
        self.bytes(32).try_into().expect("32 bytes were asked for")
    }

    /// A number from 0 to `end - 1`.
    pub fn below(&mut self, end: usize) -> usize {
        (self.next() % end as u64) as usize
    }

    /// True once in `times`.
    pub fn once_in(&mut self, times: usize) -> bool {
        self.below(times) == 0
    }

    pub fn pick<T: Copy>(&mut self, from: &[T]) -> T {
        from[self.below(from.len())]
    }
}

/// Says of how many cases a test held that they agree. `xtask counts` adds up the numbers of the
/// same words, and the table of docs/PROVED.md must have just these.
pub fn counted(cases: usize, what: &str) {
    println!("counted: {cases} {what}");
}

/// The shortest of many times of a call.
pub fn shortest<T>(mut call: impl FnMut() -> T) -> Duration {
    let time = |_| {
        let start = Instant::now();
        black_box(call());
        start.elapsed()
    };
    (0..40).map(time).min().expect("there are some")
}

/// The text of a file in vectors/.
pub fn vectors(file: &str) -> String {
    let path = Path::new(env!("CARGO_MANIFEST_DIR")).join("../../vectors").join(file);
    fs::read_to_string(&path).unwrap_or_else(|error| panic!("{}: {error}", path.display()))
}

pub fn hex(bytes: &[u8]) -> String {
    bytes.iter().map(|byte| format!("{byte:02x}")).collect()
}

/// One entry of a file of NIST's.
pub struct Entry {
    pub message: Vec<u8>,
    pub digest: Vec<u8>,
}

/// The bytes that `hex` spells, or nothing where it spells none.
pub fn unhex(hex: &str) -> Option<Vec<u8>> {
    if !hex.is_ascii() || hex.len() % 2 != 0 {
        return None;
    }
    (0..hex.len()).step_by(2).map(|at| u8::from_str_radix(&hex[at..at + 2], 16).ok()).collect()
}

/// The entries of a file in vectors/. A line that is not understood stops the test, lest entries
/// pass unread.
pub fn nist(file: &str) -> Vec<Entry> {
    let text = vectors(file);
    let (mut bits, mut message, mut entries) = (0, Vec::new(), Vec::new());
    for line in text.lines().map(str::trim) {
        if line.is_empty() || line.starts_with('#') || line == "[L = 64]" {
            continue;
        }
        match line.split_once(" = ") {
            Some(("Len", value)) => bits = value.parse().expect("Len is a number"),
            Some(("Msg", value)) => message = message_of(bits, value),
            Some(("MD", value)) => {
                entries.push(Entry {
                    message: message.clone(),
                    digest: unhex(value).expect("MD is hex"),
                });
            }
            _ => panic!("{file}: this line is not understood: {line}"),
        }
    }
    entries
}

/// NIST writes the empty message as one byte 00, so the length decides.
fn message_of(bits: usize, hex: &str) -> Vec<u8> {
    let mut message = unhex(hex).expect("Msg is hex");
    assert!(bits % 8 == 0 && message.len() >= bits / 8, "Msg has too few bytes for Len = {bits}");
    assert!(message.len() == bits / 8 || bits == 0, "Msg has too many bytes for Len = {bits}");
    message.truncate(bits / 8);
    message
}
