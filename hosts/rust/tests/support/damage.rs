//! Packets that are wrong, and what they must be refused with.
//!
//! Each damage leads to one code where nothing else is wrong. Where several are done to one packet,
//! the order of the rules says which code comes first, so the outcome is known without any reader's
//! help.

use super::packets::{list, Kind, Level, Plan, RequestFields, ResponseFields};
use super::Xorshift;
use independent::packet;
use independent::tag::*;

/// What was done: in which message, and the code that it leads to.
pub type Done = (Level, u32);

/// The first code of all that was done, or 0: codes 1 to 3; then 4 to 7 by message; then 8.
pub fn first_code(done: &[Done]) -> u32 {
    first(done).map_or(0, |done| done.1)
}

/// Of all that was done, what a reader must refuse the packet for.
pub fn first(done: &[Done]) -> Option<Done> {
    let place = |(level, code): &Done| match code {
        1..=3 => (0, *code),
        8 => (9, *code),
        _ => (1 + *level as u32, *code),
    };
    done.iter().copied().min_by_key(place)
}

/// A packet and all that was done to it.
pub struct Damaged {
    pub packet: Vec<u8>,
    pub done: Vec<Done>,
}

/// Damages `plan` in up to three of its values, the frames of up to two of its messages, and now
/// and then the packet around them.
pub fn damaged(random: &mut Xorshift, mut plan: Plan) -> Damaged {
    let (values, frames) = random.pick(&[(1, 0), (2, 0), (3, 0), (0, 1), (1, 1), (2, 2), (0, 2)]);
    let mut done = Vec::new();
    let mut touched = Vec::new();
    for _ in 0..values {
        let level = random.pick(plan.kind.levels());
        let tag = random.pick(plan.kind.known(level));
        // A second damage to one value could undo the first, and a message with no pair left would
        // have no right frame.
        if plan.has(level, tag) && plan.pairs(level).len() > 1 && !touched.contains(&(level, tag)) {
            touched.push((level, tag));
            done.extend(damage_value(random, &mut plan, level, tag));
        }
    }
    let spoilt: Vec<Level> = (0..frames).map(|_| random.pick(plan.kind.levels())).collect();
    let mut packet = plan.packet_with(|level, bytes| {
        if spoilt.contains(&level) {
            done.push((level, spoil(random, bytes)));
        }
    });
    if packet.len() > packet::MOST {
        done.push((Level::Outer, 1));
    } else if random.once_in(12) {
        done.push((Level::Outer, damage_packet(random, &mut packet)));
    }
    Damaged { packet, done }
}

/// The request with such damage that it is refused.
pub fn bad_request(random: &mut Xorshift, request: &RequestFields) -> Vec<u8> {
    loop {
        let damaged = damaged(random, request.plan());
        if first_code(&damaged.done) != 0 {
            return damaged.packet;
        }
    }
}

/// The response with damage of any kind. What is seldom met where any value is damaged is done by
/// itself here: to the packet around the messages, and to TYPE and the versions.
pub fn bad_response(random: &mut Xorshift, response: &ResponseFields) -> Damaged {
    let mut plan = response.plan();
    match random.below(4) {
        0 => {
            let mut packet = plan.packet();
            let code = damage_packet(random, &mut packet);
            Damaged { packet, done: vec![(Level::Outer, code)] }
        }
        1 => {
            let (level, tag) =
                random.pick(&[(Level::Outer, TYPE), (Level::Srep, VER), (Level::Srep, VERS)]);
            let (value, code) =
                wrong_value(random, plan.kind, level, tag).expect("it holds no message");
            plan.set(level, tag, &value);
            Damaged { packet: plan.packet(), done: vec![(level, code)] }
        }
        _ => damaged(random, plan),
    }
}

/// Takes `tag` out, or gives it a value that it may not have. Says what that leads to, which is
/// nothing where the tag can be spared.
fn damage_value(random: &mut Xorshift, plan: &mut Plan, level: Level, tag: Tag) -> Option<Done> {
    match wrong_value(random, plan.kind, level, tag) {
        Some((value, code)) if !random.once_in(3) => {
            plan.set(level, tag, &value);
            Some((level, code))
        }
        _ => {
            plan.pairs(level).retain(|pair| pair.0 != tag);
            plan.kind.needed(level).contains(&tag).then_some((level, 6))
        }
    }
}

/// A value that `tag` may not have, and the code for it. There is none where the value is a
/// message, which is judged by itself.
pub fn wrong_value(
    random: &mut Xorshift,
    kind: Kind,
    level: Level,
    tag: Tag,
) -> Option<(Vec<u8>, u32)> {
    if [SREP, CERT, DELE].contains(&tag) {
        return None;
    }
    let meaning = match (kind, level, tag) {
        (Kind::Request, _, VER) => {
            Some(list(random.pick(&[&[0][..], &[2], &[0, 2, 9], &[0x0100_0000]])))
        }
        (Kind::Request, _, TYPE) => Some(another_number(random, 0)),
        (Kind::Response, Level::Outer, TYPE) | (Kind::Response, Level::Srep, VER) => {
            Some(another_number(random, 1))
        }
        (Kind::Response, Level::Srep, VERS) => {
            Some(list(random.pick(&[&[0][..], &[2], &[0, 2, 9], &[0x0100_0000]])))
        }
        _ => None,
    };
    match meaning {
        Some(value) if random.once_in(2) => Some((value, 8)),
        _ => Some((wrong_shape(random, kind, tag), 7)),
    }
}

fn another_number(random: &mut Xorshift, right: u32) -> Vec<u8> {
    let any = random.next() as u32 | 2;
    let numbers = [0, 1, 2, 256, 257, 0x0100_0000, 0x0100_0001, 0x8000_000c, u32::MAX, any];
    let wrong: Vec<u32> = numbers.into_iter().filter(|number| *number != right).collect();
    random.pick(&wrong).to_le_bytes().to_vec()
}

/// A value of whole words that no message may have at `tag`: most are of a wrong length.
fn wrong_shape(random: &mut Xorshift, kind: Kind, tag: Tag) -> Vec<u8> {
    match (kind, tag) {
        (_, VERS) | (Kind::Request, VER) => wrong_list(random),
        (_, PATH) => {
            let length = random.pick(&[4, 28, 36, 60, 1020, 1028, 33 * 32]);
            random.bytes(length)
        }
        (_, SIG) => another_length(random, 64),
        (_, MIDP | MINT | MAXT) => another_length(random, 8),
        (_, RADI) if random.once_in(2) => vec![0; 4],
        (_, TYPE | VER | RADI | INDX) => another_length(random, 4),
        _ => another_length(random, 32),
    }
}

fn another_length(random: &mut Xorshift, right: usize) -> Vec<u8> {
    let lengths = [0, 4, 8, right - 4, right + 4, 2 * right, 4 * random.below(20)];
    let wrong: Vec<usize> = lengths.into_iter().filter(|length| *length != right).collect();
    let length = random.pick(&wrong);
    random.bytes(length)
}

/// No versions, more than 32, two equal ones, or one below the one before it.
fn wrong_list(random: &mut Xorshift) -> Vec<u8> {
    let too_many = 33 + random.below(3) as u32;
    let mut versions: Vec<u32> = (1..=2 + random.below(31) as u32).collect();
    let at = 1 + random.below(versions.len() - 1);
    match random.below(4) {
        0 => return vec![],
        1 => return list(&(1..=too_many).collect::<Vec<u32>>()),
        2 => versions[at] = versions[at - 1],
        _ => versions.swap(at - 1, at),
    }
    list(&versions)
}

/// The word at this place of a header: N, then the offsets, then the tags.
pub fn word(bytes: &[u8], at: usize) -> u32 {
    u32::from_le_bytes(bytes[4 * at..4 * at + 4].try_into().expect("a word has 4 bytes"))
}

pub fn set_word(bytes: &mut [u8], at: usize, word: u32) {
    bytes[4 * at..4 * at + 4].copy_from_slice(&word.to_le_bytes());
}

/// Wrong numbers of pairs. With some of them 8 N, the length of the header, is small again in 32
/// bits.
const WRONG_COUNTS: [u32; 9] =
    [0, 33, 34, 0x100, 0x2000_0000, 0x2000_0001, 0x4000_0002, 0x8000_0001, u32::MAX];

/// Spoils the frame of a message that has a right one, and says which code that leads to.
fn spoil(random: &mut Xorshift, bytes: &mut Vec<u8>) -> u32 {
    let pairs = word(bytes, 0) as usize;
    match random.below(8) {
        0 | 1 if pairs >= 2 => equal_tags(random, bytes, pairs),
        2 | 3 if pairs >= 2 => falling_tags(random, bytes, pairs),
        4 if pairs >= 2 => wrong_offset(random, bytes, pairs),
        5 if pairs >= 3 => falling_offset(random, bytes, pairs),
        6 => {
            // The header no longer fits.
            bytes.truncate(4 * random.below(2 * pairs));
            4
        }
        _ => {
            set_word(bytes, 0, random.pick(&WRONG_COUNTS));
            4
        }
    }
}

/// A tag that is the one before it.
fn equal_tags(random: &mut Xorshift, bytes: &mut [u8], pairs: usize) -> u32 {
    let at = pairs + 1 + random.below(pairs - 1);
    let before = word(bytes, at - 1);
    set_word(bytes, at, before);
    5
}

/// Two neighbours the wrong way round.
fn falling_tags(random: &mut Xorshift, bytes: &mut [u8], pairs: usize) -> u32 {
    let at = pairs + 1 + random.below(pairs - 1);
    let (before, after) = (word(bytes, at - 1), word(bytes, at));
    set_word(bytes, at - 1, after);
    set_word(bytes, at, before);
    5
}

/// An offset that is no multiple of 4, or leads past the end.
fn wrong_offset(random: &mut Xorshift, bytes: &mut [u8], pairs: usize) -> u32 {
    let at = 1 + random.below(pairs - 1);
    let (offset, end) = (word(bytes, at), (bytes.len() - 8 * pairs) as u32);
    let odd = [offset + 1, offset + 2, offset + 3, offset | 0x8000_0001];
    let past = [end + 4, end + 8, 0x7fff_fffc, 0x8000_0000, 0xffff_fffc, end | 0x0100_0000];
    let wrong = if random.once_in(2) { random.pick(&odd) } else { random.pick(&past) };
    set_word(bytes, at, wrong);
    4
}

/// An offset below the one before it, or another wrong one where none can fall.
fn falling_offset(random: &mut Xorshift, bytes: &mut [u8], pairs: usize) -> u32 {
    let can_fall: Vec<usize> = (2..pairs).filter(|at| word(bytes, at - 1) > 0).collect();
    if can_fall.is_empty() {
        return wrong_offset(random, bytes, pairs);
    }
    let at = random.pick(&can_fall);
    let before = word(bytes, at - 1);
    let lower = [0, before - 4, 4 * random.below(before as usize / 4) as u32];
    set_word(bytes, at, random.pick(&lower));
    4
}

/// Damages the mark, the length field or the number of bytes, and says which code that leads to.
fn damage_packet(random: &mut Xorshift, packet: &mut Vec<u8>) -> u32 {
    match random.below(4) {
        0 => {
            packet[random.below(8)] ^= 1 << random.below(8);
            2
        }
        1 => {
            packet[8 + random.below(4)] ^= 1 << random.below(8);
            3
        }
        2 => {
            packet.truncate(random.below(12));
            1
        }
        _ => {
            let size = packet::MOST + 1 + random.below(50);
            packet.resize(size, 0);
            1
        }
    }
}
