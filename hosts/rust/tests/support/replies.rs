//! Calls of the writer of responses: right ones in every shape, and ones with any faults.
//!
//! The first fault of a call, in the order of the rules, is known from how the call was made, so
//! that the code which is due needs nobody's word.

use super::answers::{Bad, Both, Written};
use super::packets::number;
use super::{hex, Xorshift};
use independent::making::LEAST_REQUEST;
use independent::place::Cause;
use independent::respond::{self, Unwritten};
use independent::tag::{Tag, DELE, MAXT, MINT, PUBK, SIG, TYPE, ZZZZ};
use independent::{hash, message, packet, tree, write};
use std::ops::Range;
use trawlbeacon::{response_length, Reply};

type Pairs = Vec<(Tag, Vec<u8>)>;

/// What can be wrong with a call, in the order in which it must be told.
#[derive(Clone, Copy, Debug, PartialEq, Eq, PartialOrd, Ord)]
pub enum Fault {
    Request,
    Radius,
    CertFrame,
    CertOrder,
    CertAbsent,
    CertValue,
    DeleFrame,
    DeleOrder,
    DeleAbsent,
    DeleValue,
    Path,
    Time,
    Length,
    Room,
}

pub const FAULTS: [Fault; 14] = [
    Fault::Request,
    Fault::Radius,
    Fault::CertFrame,
    Fault::CertOrder,
    Fault::CertAbsent,
    Fault::CertValue,
    Fault::DeleFrame,
    Fault::DeleOrder,
    Fault::DeleAbsent,
    Fault::DeleValue,
    Fault::Path,
    Fault::Time,
    Fault::Length,
    Fault::Room,
];

impl Fault {
    pub fn code(self) -> u32 {
        match self {
            Fault::Request => 14,
            Fault::CertFrame | Fault::DeleFrame => 4,
            Fault::CertOrder | Fault::DeleOrder => 5,
            Fault::CertAbsent | Fault::DeleAbsent => 6,
            Fault::Radius | Fault::CertValue | Fault::DeleValue => 7,
            Fault::Path => 10,
            Fault::Time => 11,
            Fault::Length => 23,
            Fault::Room => 19,
        }
    }
}

/// What can be wrong with the frame of a message.
#[derive(Clone, Copy, Debug, PartialEq, Eq, PartialOrd, Ord)]
pub enum Frame {
    /// Fewer than 4 bytes.
    Short,
    /// A length that is no multiple of 4.
    Odd,
    /// The same of the DELE in CERT, with the rest of its last word in the value behind it.
    OddDele,
    /// N is 0.
    NoTags,
    /// N is above 32.
    ManyTags,
    /// The header is longer than the message.
    Header,
    /// An offset that is no multiple of 4.
    Uneven,
    /// An offset below the one before it.
    Falling,
    /// An offset past the values.
    Outside,
}

/// All of these can be wrong with CERT.
pub const CERT_FRAMES: [Frame; 9] = [
    Frame::Short,
    Frame::Odd,
    Frame::OddDele,
    Frame::NoTags,
    Frame::ManyTags,
    Frame::Header,
    Frame::Uneven,
    Frame::Falling,
    Frame::Outside,
];

/// Those that can be wrong with DELE: where the frame of CERT is good, each value in it has whole
/// words.
pub const DELE_FRAMES: [Frame; 7] = [
    Frame::Short,
    Frame::NoTags,
    Frame::ManyTags,
    Frame::Header,
    Frame::Uneven,
    Frame::Falling,
    Frame::Outside,
];

impl Frame {
    /// Whether this is what is told of it. A DELE of odd length can stand in CERT twice, so that
    /// CERT's own length is odd too.
    pub fn is_told_as(self, cause: Cause) -> bool {
        match self {
            Frame::Short | Frame::Odd => cause == Cause::Length,
            Frame::OddDele => matches!(cause, Cause::Length | Cause::Uneven),
            Frame::NoTags | Frame::ManyTags => cause == Cause::Count,
            Frame::Header => cause == Cause::Header,
            Frame::Uneven => cause == Cause::Uneven,
            Frame::Falling => cause == Cause::Falling,
            Frame::Outside => cause == Cause::Outside,
        }
    }
}

/// A call, and the buffer that is lent with it.
#[derive(Clone, Debug)]
pub struct Call {
    pub request: Vec<u8>,
    pub indx: u32,
    pub root: [u8; 32],
    pub path: Vec<u8>,
    pub midp: u64,
    pub radi: u32,
    pub cert: Vec<u8>,
    pub signature: [u8; 64],
    pub buffer: Vec<u8>,
    /// What is wrong with the frame of CERT, and with that of its DELE.
    pub frames: [Option<Frame>; 2],
}

impl Call {
    /// A call with these faults and no others.
    pub fn with(random: &mut Xorshift, faults: &[Fault]) -> Call {
        let has = |fault| faults.contains(&fault);
        let path: Vec<u8> = (0..random.below(33)).flat_map(|_| random.array()).collect();
        let (midp, mint, maxt) = times(random, has(Fault::Time));
        let (cert, frames) = cert(random, faults, mint, maxt);
        let needed = response_length(path.len(), cert.len());
        let mut call = Call {
            request: request(random, needed, has(Fault::Length)),
            indx: 0,
            root: [0; 32],
            path,
            midp,
            radi: if has(Fault::Radius) { 0 } else { 1.max(number(random) as u32) },
            cert,
            signature: random.bytes(64).try_into().expect("64 bytes were asked for"),
            buffer: Vec::new(),
            frames,
        };
        if has(Fault::Request) {
            spoil_request(random, &mut call.request);
        }
        call.lead(random);
        if has(Fault::Path) {
            call.mislead(random);
        }
        let needed = response_length(call.path.len(), call.cert.len());
        let length = match has(Fault::Room) {
            true => needed - 1 - if random.once_in(2) { 0 } else { random.below(needed) },
            false => needed + if random.once_in(2) { 0 } else { random.below(300) },
        };
        call.buffer = random.bytes(length);
        call
    }

    /// Takes an INDX that the path can have, and the root that it leads to.
    fn lead(&mut self, random: &mut Xorshift) {
        let siblings: Vec<[u8; 32]> =
            self.path.chunks(32).map(|one| one.try_into().expect("whole siblings")).collect();
        self.indx = (random.next() % (1 << siblings.len())) as u32;
        self.root = tree::root_of(&hash::leaf(&self.request), self.indx, &siblings);
    }

    /// Makes the path lead elsewhere, or no path.
    fn mislead(&mut self, random: &mut Xorshift) {
        let (siblings, at) = (self.path.len() / 32, random.below(32));
        match random.below(6) {
            0 if siblings < 32 => self.indx |= 1 << siblings,
            1 if siblings > 0 => self.indx ^= 1 << random.below(siblings),
            2 if siblings > 0 => self.path[at] ^= 1 + random.below(255) as u8,
            3 => self.path.extend(some_words(random, 1..8)),
            // The 33rd sibling, where all before it lead to the root.
            4 if siblings == 32 => self.path.extend(random.array()),
            _ => self.root[at] ^= 1 + random.below(255) as u8,
        }
    }

    pub fn reply(&self) -> Reply<'_> {
        Reply {
            request: &self.request,
            indx: self.indx,
            root: &self.root,
            path: &self.path,
            midp: self.midp,
            radi: self.radi,
            cert: &self.cert,
            signature: &self.signature,
        }
    }

    /// What each side answers.
    pub fn ask(&self) -> Both<Written> {
        let (mut lent, mut lent_too) = (self.buffer.clone(), self.buffer.clone());
        let answer = trawlbeacon::write_response(&self.reply(), &mut lent).map_err(Bad::from);
        let reply = respond::Reply {
            request: &self.request,
            indx: self.indx,
            root: self.root,
            path: &self.path,
            midp: self.midp,
            radi: self.radi,
            cert: &self.cert,
            signature: self.signature,
        };
        let put = |bytes: Vec<u8>| write::put(&bytes, &mut lent_too).map_err(Unwritten::from);
        let answer_too = respond::response(&reply)
            .and_then(put)
            .map_err(|why| Bad { code: why.refusal.code(), at: why.at });
        Both {
            ours: Written { answer, buffer: lent },
            independent: Written { answer: answer_too, buffer: lent_too },
        }
    }

    pub fn show(&self) -> String {
        format!(
            "request {} INDX {} ROOT {} PATH {} MIDP {} RADI {} CERT {} SIG {}, {} bytes of room",
            hex(&self.request),
            self.indx,
            hex(&self.root),
            hex(&self.path),
            self.midp,
            self.radi,
            hex(&self.cert),
            hex(&self.signature),
            self.buffer.len()
        )
    }
}

/// MIDP, MINT and MAXT, in order or not.
pub fn times(random: &mut Xorshift, outside: bool) -> (u64, u64, u64) {
    let mut times = [number(random), number(random), number(random)];
    times.sort_unstable();
    let [first, second, third] = times;
    let edge = random.once_in(3);
    match (outside, random.once_in(2)) {
        (false, true) if edge => (first, first, third),
        (false, false) if edge => (third, first, third),
        (false, _) => (second, first, third),
        (true, true) => (first.min(u64::MAX - 1), first.min(u64::MAX - 1) + 1, u64::MAX),
        (true, false) => (first.max(1), 0, first.max(1) - 1),
    }
}

/// A good request, as long as a response of so many bytes, or longer; or shorter than it. Only with
/// a bad CERT, which is told before, a response can need more bytes than a request may have, or a
/// part of a word.
fn request(random: &mut Xorshift, needed: usize, shorter: bool) -> Vec<u8> {
    let least = LEAST_REQUEST;
    let needed = ((needed + 3) / 4 * 4).min(packet::MOST);
    let length = match (shorter, random.once_in(2)) {
        (true, true) => needed - 4,
        (true, false) => needed - 4 - 4 * random.below((needed - least) / 4),
        (false, true) => needed,
        (false, false) => needed + 4 * random.below((packet::MOST - needed) / 4 + 1),
    };
    let versions: &[u32] = random.pick(&[&[1][..], &[0, 1], &[1, 2]]);
    let more = 4 * (versions.len() - 1);
    // One version more takes room from the zeros.
    let padding = length.saturating_sub(least + more);
    write::request_of(versions, &random.array(), &random.array(), padding)
}

/// Makes a request bad in one of the ways that a packet, its frame, its tags and its values can be.
fn spoil_request(random: &mut Xorshift, request: &mut Vec<u8>) {
    match random.below(5) {
        0 => request[random.below(8)] ^= 0x20,
        1 => request[8] ^= 4,
        2 => request[12] = 0,
        3 => request.truncate(11),
        // TYPE is that of a response: the value behind VER, SRV and NONC.
        _ => {
            let at = request.len() - zeros_behind(request);
            request[at - 4] = 1;
        }
    }
}

/// How many bytes the value of ZZZZ has.
fn zeros_behind(request: &[u8]) -> usize {
    let message = message::Message::read(&request[packet::HEADER..]).expect("a good request");
    message.get(ZZZZ).expect("it is padded").len()
}

/// The value of CERT with its DELE, with these of their faults, and which frames are wrong in it.
pub fn cert(
    random: &mut Xorshift,
    faults: &[Fault],
    mint: u64,
    maxt: u64,
) -> (Vec<u8>, [Option<Frame>; 2]) {
    let has = |fault| faults.contains(&fault);
    let mut frame = |fault, kinds: &[Frame]| has(fault).then(|| random.pick(kinds));
    let mut outer_frame = frame(Fault::CertFrame, &CERT_FRAMES);
    let inner_frame = frame(Fault::DeleFrame, &DELE_FRAMES);
    // Of a DELE that is taken out no length is told.
    if outer_frame == Some(Frame::OddDele) && has(Fault::CertAbsent) {
        outer_frame = Some(Frame::Odd);
    }
    let mut inner: Pairs = vec![
        (PUBK, random.array().to_vec()),
        (MINT, mint.to_le_bytes().to_vec()),
        (MAXT, maxt.to_le_bytes().to_vec()),
    ];
    let dele = [Fault::DeleOrder, Fault::DeleAbsent, Fault::DeleValue].map(has);
    let inner = value(random, &mut inner, &[PUBK, MINT, MAXT], inner_frame, dele);
    let mut outer: Pairs = vec![(SIG, random.bytes(64)), (DELE, inner)];
    let cert = [Fault::CertOrder, Fault::CertAbsent, Fault::CertValue].map(has);
    let cert = value(random, &mut outer, &[SIG, DELE], outer_frame, cert);
    (cert, [outer_frame, inner_frame])
}

/// The bytes of a message of these pairs, in which these tags are needed, with a wrong frame, tags
/// that do not rise, an absent tag and a wrong value, where each is asked for.
fn value(
    random: &mut Xorshift,
    pairs: &mut Pairs,
    needed: &[Tag],
    frame: Option<Frame>,
    [order, absent, wrong]: [bool; 3],
) -> Vec<u8> {
    // A value that is a message is judged by itself; and what is wrong is not taken out.
    let plain = if needed.contains(&DELE) { 1 } else { needed.len() };
    let spoilt = random.below(plain);
    if wrong {
        let length = pairs[spoilt].1.len();
        let other = some_words(random, 0..20);
        pairs[spoilt].1 = if other.len() == length { vec![7; length + 4] } else { other };
    }
    if absent {
        let others = needed.len() - usize::from(wrong);
        let gone = (spoilt + usize::from(wrong) + random.below(others)) % needed.len();
        pairs.retain(|pair| pair.0 != needed[gone]);
    }
    // Tags that mean nothing there: with one of them there are always two, and with both three.
    if order || frame.is_some() || random.once_in(3) {
        pairs.push((TYPE, some_words(random, 0..3)));
    }
    // An offset can only fall where there are three values, and not all are empty.
    let falls = frame == Some(Frame::Falling);
    if falls || random.once_in(4) {
        pairs.push((ZZZZ, some_words(random, usize::from(falls)..60)));
    }
    pairs.sort();
    if frame == Some(Frame::OddDele) {
        odd_dele(random, pairs);
    }
    if order {
        let at = random.below(pairs.len() - 1);
        match random.once_in(2) {
            true => pairs.swap(at, at + 1),
            // The same tag twice, which takes no needed one away.
            false => pairs.insert(at, pairs[at].clone()),
        }
    }
    let mut bytes = message::encode(pairs);
    if let Some(frame) = frame {
        spoil_frame(random, frame, &mut bytes, pairs.len(), needed.contains(&DELE));
    }
    bytes
}

/// The bytes of so many words.
fn some_words(random: &mut Xorshift, count: Range<usize>) -> Vec<u8> {
    let words = count.start + random.below(count.len());
    random.bytes(4 * words)
}

/// Gives DELE some bytes more and the value behind it the rest of a word, so that only DELE's end is
/// no multiple of 4.
fn odd_dele(random: &mut Xorshift, pairs: &mut Pairs) {
    let at = pairs.iter().position(|pair| pair.0 == DELE).expect("it was not taken out");
    let more = 1 + random.below(3);
    pairs[at].1.extend(random.bytes(more));
    pairs[at + 1].1.extend(random.bytes(4 - more));
}

/// Makes the frame of a message of so many pairs wrong. Only the outer one can have a length that is
/// no multiple of 4.
fn spoil_frame(
    random: &mut Xorshift,
    frame: Frame,
    bytes: &mut Vec<u8>,
    pairs: usize,
    outer: bool,
) {
    let index = 1 + random.below(pairs - 1);
    match frame {
        Frame::Short => bytes.truncate(if outer { random.below(4) } else { 0 }),
        Frame::Odd => match random.once_in(2) {
            true => bytes.truncate(bytes.len() - 1 - random.below(3)),
            false => bytes.extend(&random.array()[..1 + random.below(3)]),
        },
        // Its pairs are wrong already.
        Frame::OddDele => {}
        Frame::NoTags => put_word(bytes, 0, 0),
        Frame::ManyTags => put_word(bytes, 0, random.pick(&[33, 34, 1 << 29, u32::MAX])),
        Frame::Header => bytes.truncate(8 * pairs - 4 * (1 + random.below(2 * pairs - 1))),
        Frame::Uneven => bytes[4 * index] |= 1 + random.below(3) as u8,
        Frame::Falling => fall(random, bytes, pairs),
        Frame::Outside => {
            let section = (bytes.len() - 8 * pairs) as u32;
            put_word(bytes, index, random.pick(&[section + 4, 0x7f00_0000, u32::MAX - 3]));
        }
    }
}

/// Puts an offset below the one before it, which is made larger than 0 where it is not.
fn fall(random: &mut Xorshift, bytes: &mut [u8], pairs: usize) {
    let index = 2 + random.below(pairs - 2);
    let at = 4 * (index - 1);
    let before = u32::from_le_bytes(bytes[at..at + 4].try_into().expect("four bytes")).max(4);
    put_word(bytes, index - 1, before);
    put_word(bytes, index, 4 * random.below(before as usize / 4) as u32);
}

fn put_word(bytes: &mut [u8], index: usize, word: u32) {
    bytes[4 * index..4 * index + 4].copy_from_slice(&word.to_le_bytes());
}
