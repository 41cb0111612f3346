//! One export, called on one case after the other, and what must hold of each call.
//!
//! Each case is called twice. First all that is lent ends at a page that nobody may touch. Then it
//! begins at such a page, or stands between other bytes at an odd address, in turn; and what stands
//! in a buffer that is only written is other than before. The answer and the bytes that are written
//! must be the same.

use crate::any_answers::Answer;
use crate::any_make::Maker;
use crate::support::guarded::{Guarded, Spot};
use independent::sha512::Sha512;
use std::collections::{BTreeMap, BTreeSet};
use trawlbeacon::raw::{size, tb_size};

/// The most that one call is lent, and the most bytes of each.
const LENT: usize = 10;
pub const MOST_BYTES: usize = 1 << 17;

/// What an export may do with bytes that it is lent.
#[derive(Clone, Copy, Debug, PartialEq, Eq)]
pub enum Use {
    /// Nothing but read them.
    Read,
    /// Write to the front of them, where it does not refuse. What stood there plays no part.
    Out,
    /// Write to a part of them that the answer tells, where it does not refuse.
    Pile,
    /// Write them, where it does not refuse.
    State,
}

struct Lent {
    bytes: Vec<u8>,
    used: Use,
    /// Whether they are numbers, which stand at a multiple of their size.
    numbers: bool,
}

/// What was lent, by its number.
#[derive(Clone, Copy)]
pub struct Id(usize);

/// Where the copies are of what is lent to one call. An export is handed each of them once, so that
/// no two references lead to the same bytes.
pub struct Copies<'a>(&'a [(*mut u8, usize)]);

impl<'a> Copies<'a> {
    pub fn at(&self, id: Id) -> *const u8 {
        self.0[id.0].0
    }

    pub fn out(&self, id: Id) -> *mut u8 {
        self.0[id.0].0
    }

    pub fn len(&self, id: Id) -> tb_size {
        size(self.0[id.0].1)
    }

    fn reference<T>(&self, id: Id, length: usize) -> &'a mut T {
        let (at, len) = self.0[id.0];
        assert_eq!(len, length);
        // SAFETY: so many bytes are there, at a multiple of their size where they are numbers, any
        // bytes are a value of the types below, and there is no other reference to them.
        unsafe { &mut *at.cast::<T>() }
    }

    pub fn array<const N: usize>(&self, id: Id) -> &'a mut [u8; N] {
        self.reference(id, N)
    }

    pub fn number(&self, id: Id) -> &'a mut u64 {
        self.reference(id, 8)
    }

    pub fn numbers<const N: usize>(&self, id: Id) -> &'a mut [u64; N] {
        self.reference(id, 8 * N)
    }

    pub fn word(&self, id: Id) -> &'a mut u32 {
        self.reference(id, 4)
    }
}

/// What came of a call.
#[derive(PartialEq)]
struct Outcome {
    answer: Answer,
    written: Vec<u8>,
}

/// An export under trial.
pub struct Trial<'a> {
    pub make: Maker<'a>,
    /// What it may answer.
    named: BTreeSet<u32>,
    rooms: Vec<Guarded>,
    lent: Vec<Lent>,
    cases: usize,
    /// How often each answer was given.
    pub seen: BTreeMap<u32, usize>,
    digest: Sha512,
}

impl<'a> Trial<'a> {
    pub fn new(make: Maker<'a>, named: BTreeSet<u32>) -> Self {
        let rooms = (0..LENT).map(|_| Guarded::new(MOST_BYTES)).collect();
        let (lent, seen, digest) = (Vec::new(), BTreeMap::new(), Sha512::new());
        Trial { make, named, rooms, lent, cases: 0, seen, digest }
    }

    pub fn lend(&mut self, used: Use, bytes: Vec<u8>) -> Id {
        assert!(bytes.len() <= MOST_BYTES && self.lent.len() < LENT);
        self.lent.push(Lent { bytes, used, numbers: false });
        Id(self.lent.len() - 1)
    }

    pub fn numbers(&mut self, used: Use, numbers: &[u64]) -> Id {
        let id = self.lend(used, numbers.iter().flat_map(|number| number.to_ne_bytes()).collect());
        self.lent[id.0].numbers = true;
        id
    }

    pub fn word(&mut self, used: Use, word: u32) -> Id {
        self.words(used, &[word])
    }

    pub fn words(&mut self, used: Use, words: &[u32]) -> Id {
        let id = self.lend(used, words.iter().flat_map(|word| word.to_ne_bytes()).collect());
        self.lent[id.0].numbers = true;
        id
    }

    pub fn read(&mut self, bytes: impl Into<Vec<u8>>) -> Id {
        self.lend(Use::Read, bytes.into())
    }

    pub fn out(&mut self, length: usize) -> Id {
        let bytes = self.make.random.bytes(length);
        self.lend(Use::Out, bytes)
    }

    /// Calls twice, and holds what comes of it to the rules.
    pub fn call(&mut self, call: impl Fn(&Copies) -> Answer) {
        let first = self.once(&call, Spot::Back);
        let other = if self.cases % 2 == 0 { Spot::Front } else { Spot::Amid(self.cases % 8) };
        for lent in self.lent.iter_mut().filter(|lent| lent.used == Use::Out) {
            lent.bytes.iter_mut().for_each(|byte| *byte = !*byte);
        }
        let second = self.once(&call, other);
        assert_eq!(first.answer, second.answer, "the same call has another answer");
        assert!(first.written == second.written, "the same call writes other bytes");
        self.count(&first);
        self.lent.clear();
        self.cases += 1;
    }

    fn once(&mut self, call: impl Fn(&Copies) -> Answer, spot: Spot) -> Outcome {
        let mut copies = [(std::ptr::null_mut(), 0); LENT];
        for (at, lent) in self.lent.iter().enumerate() {
            let spot = match spot {
                Spot::Amid(_) if lent.numbers => Spot::Amid(256),
                Spot::Amid(odd) => Spot::Amid(256 + odd),
                edge => edge,
            };
            copies[at] = (self.rooms[at].lay(&lent.bytes, spot), lent.bytes.len());
        }
        let answer = call(&Copies(&copies));
        self.held_to_the_header(&answer);
        let mut written = Vec::new();
        for (lent, room) in self.lent.iter().zip(&mut self.rooms) {
            room.left(|after| lent.compare(after, &answer, &mut written));
        }
        Outcome { answer, written }
    }

    /// What the header says of every answer.
    fn held_to_the_header(&self, answer: &Answer) {
        let Answer { said, refused, at, place, others, .. } = answer;
        assert!(self.named.contains(said), "{answer:?}: the header names no such code");
        let packet = (4..=7).contains(said) && *refused;
        let longest = self.lent.iter().map(|lent| lent.bytes.len()).max().unwrap_or(0);
        assert!(*at == 0 || packet && *at <= longest as u64, "{answer:?}: at");
        let blamed = *refused && matches!(said, 1..=14 | 16 | 17);
        assert!(*place == 0 || blamed && *place < 16, "{answer:?}: place");
        assert!(!refused || others.iter().all(|byte| *byte == 0), "{answer:?}: no zeros");
    }

    fn count(&mut self, outcome: &Outcome) {
        let Outcome { answer: Answer { said, at, place, others, .. }, written } = outcome;
        *self.seen.entry(*said).or_default() += 1;
        for number in [u64::from(*said), *at, *place, written.len() as u64] {
            self.digest.update(&number.to_le_bytes());
        }
        self.digest.update(others);
        self.digest.update(written);
    }

    /// Of every answer and every byte that was written so far.
    pub fn digest(&self) -> [u8; 64] {
        self.digest.clone().finish()
    }
}

impl Lent {
    /// What was left of the bytes: what may not have changed is what it was, and the rest is added
    /// to what was written.
    fn compare(&self, after: &[u8], answer: &Answer, written: &mut Vec<u8>) {
        let whole = 0..self.bytes.len();
        let may = match self.used {
            Use::Read => 0..0,
            _ if answer.refused => 0..0,
            Use::State => whole,
            Use::Out | Use::Pile => answer.written.clone(),
        };
        assert!(may.end <= after.len(), "{answer:?}: more is written than there is room for");
        let same = after[..may.start] == self.bytes[..may.start]
            && after[may.end..] == self.bytes[may.end..];
        assert!(same, "{answer:?}: {:?} bytes were written to that had to stay", self.used);
        written.extend(&after[may]);
    }
}
