//! Makes the inputs of a case: any bytes, of many lengths and of those at which something changes;
//! real ones; and real ones that are damaged.

use crate::any_answers::RECORD;
use crate::any_real::{records, Exchange, Real};
use crate::any_trial::MOST_BYTES;
use crate::support::packets::number;
use crate::support::Xorshift;
use independent::hash::Hash;
use trawlbeacon::raw::{size, tb_size};

/// Lengths at which something changes, or of which something is.
const LENGTHS: [usize; 30] = [
    0, 1, 3, 4, 8, 11, 12, 13, 31, 32, 33, 63, 64, 65, 72, 111, 112, 127, 128, 129, 152, 1024,
    1035, 1036, 1037, 1999, 2000, 2001, 4095, 4096,
];
const LONG: [usize; 8] = [4097, 8192, 32_768, 32_800, 65_535, 65_536, 65_537, 87_609];

/// What can be lent as the answer on a signature: 1 is yes, and every other number is no.
const ANSWERS: [u32; 8] = [1, 1, 1, 1, 0, 2, 256, u32::MAX];

/// Words that a header can go wrong by.
const WORDS: [u32; 10] = [0, 1, 2, 4, 32, 33, 64, 0x7fff_ffff, 0x8000_0000, u32::MAX];

/// What a packet begins with. The length of its message follows.
const MARK: &[u8] = b"ROUGHTIM";

pub struct Maker<'a> {
    pub random: Xorshift,
    pub real: &'a Real,
}

impl<'a> Maker<'a> {
    pub fn length(&mut self) -> usize {
        match self.random.below(64) {
            0 => self.random.pick(&LONG),
            1 => self.random.below(MOST_BYTES + 1),
            2..=19 => self.random.pick(&LENGTHS),
            20..=29 => self.random.below(2100),
            _ => self.random.below(300),
        }
    }

    /// Bytes without a pattern, or one byte again and again.
    pub fn bytes(&mut self, length: usize) -> Vec<u8> {
        if self.random.once_in(8) {
            return vec![self.random.pick(&[0, 0xff, 1, b'"', b'[']); length];
        }
        self.random.bytes(length)
    }

    pub fn any(&mut self) -> Vec<u8> {
        let length = self.length();
        self.bytes(length)
    }

    pub fn array<const N: usize>(&mut self) -> [u8; N] {
        self.bytes(N).try_into().expect("so many were asked for")
    }

    /// A number of any size, or one at which numbers end, or the time at which the records are.
    pub fn number(&mut self) -> u64 {
        let near = self.random.below(3) as u64;
        let any = number(&mut self.random);
        self.random.pick(&[any, any, near, u64::MAX - near, 1_700_000_000 + near])
    }

    pub fn word(&mut self) -> u32 {
        let any = number(&mut self.random) as u32;
        let edge = self.random.pick(&WORDS);
        self.random.pick(&[any, edge])
    }

    /// A place, or a number, of which there should be fewer than this.
    pub fn place(&mut self, count: usize) -> tb_size {
        if self.random.once_in(16) {
            return self.number() as tb_size;
        }
        size(self.random.below(count + 1))
    }

    /// The length of a buffer for which so many bytes are needed.
    pub fn room(&mut self, needed: usize) -> usize {
        let more = needed + self.random.below(40);
        let less = self.random.below(needed + 1);
        let any = self.length();
        let short = needed.saturating_sub(1);
        self.random
            .pick(&[needed, needed, needed, more, more, more, short, less, any])
            .min(MOST_BYTES)
    }

    pub fn answer(&mut self) -> u32 {
        self.random.pick(&ANSWERS)
    }

    /// Real bytes as they are, or damaged; seldom any bytes.
    pub fn near(&mut self, real: &[u8], another: &[u8]) -> Vec<u8> {
        match self.random.below(16) {
            0 => self.any(),
            1..=8 => real.to_vec(),
            _ => self.damaged(real, another),
        }
    }

    /// Damaged, and now and then with the length field of a packet set right again, so that what
    /// comes after it is looked at.
    fn damaged(&mut self, real: &[u8], another: &[u8]) -> Vec<u8> {
        let mut bytes = real.to_vec();
        for _ in 0..1 + self.random.below(2) {
            bytes = self.damage(bytes, another);
        }
        bytes.truncate(MOST_BYTES);
        if bytes.starts_with(MARK) && bytes.len() >= 12 && self.random.once_in(2) {
            let length = (bytes.len() - 12) as u32;
            bytes[8..12].copy_from_slice(&length.to_le_bytes());
        }
        bytes
    }

    fn damage(&mut self, mut bytes: Vec<u8>, another: &[u8]) -> Vec<u8> {
        let length = bytes.len();
        match self.random.below(8) {
            _ if length == 0 => return self.any(),
            0 | 1 => self.turn(&mut bytes),
            2 => self.turn(&mut bytes[..length.min(96)]),
            3 => bytes[self.random.below(length)] = self.random.next() as u8,
            4 => self.set_word(&mut bytes),
            5 => bytes.truncate(self.cut(length)),
            6 => {
                let more = self.random.pick(&[1, 4, 32, 100]);
                bytes.extend(self.bytes(more));
            }
            _ => {
                bytes.truncate(self.cut(length));
                let from = self.cut(another.len());
                bytes.extend(&another[from..]);
            }
        }
        bytes
    }

    /// Turns one to three bits.
    fn turn(&mut self, bytes: &mut [u8]) {
        for _ in 0..1 + self.random.below(3) {
            let bit = self.random.below(8 * bytes.len());
            bytes[bit / 8] ^= 1 << (bit % 8);
        }
    }

    /// Sets a word, mostly one of the first, to another that is near it or at an edge.
    fn set_word(&mut self, bytes: &mut [u8]) {
        let words = bytes.len() / 4;
        let within = if self.random.once_in(2) { words.min(24) } else { words };
        if within == 0 {
            return;
        }
        let at = 4 * self.random.below(within);
        let was = u32::from_le_bytes(bytes[at..at + 4].try_into().expect("a word"));
        let (up, down, edge) = (was.wrapping_add(4), was.wrapping_sub(4), self.word());
        let word = self.random.pick(&[up, down, was.wrapping_add(1), edge]);
        bytes[at..at + 4].copy_from_slice(&word.to_le_bytes());
    }

    /// A place to cut at: mostly between two words, and now and then near the start.
    fn cut(&mut self, length: usize) -> usize {
        let most = if self.random.once_in(8) { length.min(16) } else { length };
        let at = self.random.below(most + 1);
        if self.random.once_in(3) {
            at
        } else {
            at / 4 * 4
        }
    }

    fn one(&mut self) -> &'a Exchange {
        let real = self.real;
        &real.exchanges[self.random.below(real.exchanges.len())]
    }

    pub fn request(&mut self) -> Vec<u8> {
        let (one, another) = (self.one(), self.one());
        self.near(&one.request, &another.request)
    }

    pub fn response(&mut self) -> Vec<u8> {
        let (one, another) = (self.one(), self.one());
        self.near(&one.response, &another.response)
    }

    /// A key, a request and a response, mostly of one exchange.
    pub fn exchange(&mut self) -> (Hash, Vec<u8>, Vec<u8>) {
        let (one, another) = (self.one(), self.one());
        let key = if self.random.once_in(12) { another.key } else { one.key };
        let asked = if self.random.once_in(12) { another } else { one };
        let request = self.mostly(&asked.request, &another.request);
        (key, request, self.near(&one.response, &another.response))
    }

    /// As [`Maker::near`], but less often damaged, where something else is lent beside it.
    pub fn mostly(&mut self, real: &[u8], another: &[u8]) -> Vec<u8> {
        if self.random.once_in(6) {
            self.near(real, another)
        } else {
            real.to_vec()
        }
    }

    /// A pile, of few records but now and then.
    pub fn pile(&mut self) -> Vec<u8> {
        let real = self.real;
        let piles = if self.random.once_in(16) { &real.walks } else { &real.piles };
        let [one, another] = [0; 2].map(|_| self.random.below(piles.len()));
        let mut pile = self.mostly(&piles[one], &piles[another]);
        if self.random.once_in(3) && records(&pile) > 0 {
            self.damage_record(&mut pile);
        }
        pile
    }

    /// Damages one of a record's fields, or its response.
    fn damage_record(&mut self, pile: &mut [u8]) {
        let start = RECORD * self.random.below(records(pile));
        let record = &mut pile[start..start + RECORD];
        if self.random.once_in(2) {
            return self.damage_response(record);
        }
        let fields = [0..32, 32..64, 64..72, 72..96, 96..240, 2096..2500];
        let field = fields[self.random.below(fields.len())].clone();
        self.turn(&mut record[field]);
    }

    /// Puts another response into a record, as long as it is.
    fn damage_response(&mut self, record: &mut [u8]) {
        let (one, another) = (self.one(), self.one());
        let was = record[2096..].iter().rposition(|byte| *byte != 0).map_or(0, |last| last + 1);
        let whole = [&record[2096..2096 + was], &one.response][self.random.below(2)].to_vec();
        let mut response = self.damaged(&whole, &another.response);
        response.truncate(2000);
        let length = response.len() as u32;
        record[68..72].copy_from_slice(&length.to_le_bytes());
        record[2096..4096].fill(0);
        record[2096..2096 + response.len()].copy_from_slice(&response);
    }

    /// Answers for a pile of so many records.
    pub fn answers(&mut self, records: usize) -> Vec<u8> {
        let mut answers = vec![1; 2 * records];
        match self.random.below(8) {
            0 => answers.push(1),
            1 if records > 0 => answers[self.random.below(2 * records)] = 0,
            2 if records > 0 => answers[self.random.below(2 * records)] = self.random.next() as u8,
            3 if self.random.once_in(4) => answers = self.any(),
            _ => (),
        }
        answers
    }

    pub fn text(&mut self) -> Vec<u8> {
        let texts = &self.real.texts;
        let [one, another] = [0; 2].map(|_| self.random.below(texts.len()));
        self.near(&texts[one], &texts[another])
    }

    pub fn list(&mut self) -> Vec<u8> {
        let lists = &self.real.lists;
        let [one, another] = [0; 2].map(|_| self.random.below(lists.len()));
        self.mostly(&lists[one], &lists[another])
    }

    /// Nodes of a tree: few, but now and then as many as there may be and one more.
    pub fn nodes(&mut self) -> Vec<u8> {
        let few = self.random.below(9);
        let many = self.random.pick(&[31, 32, 33, 512, 513, 1023, 1024, 1025, 2047]);
        let count = if self.random.once_in(150) { many } else { few };
        let more = if self.random.once_in(16) { self.random.below(40) } else { 0 };
        self.bytes(32 * count + more)
    }
}
