//! The hashes that are timed: whole messages, and a message in pieces.

use crate::run::Run;
use crate::sides::{work, Side, Subject, Work};
use crate::table::{count, Columns, Table};
use independent::hash;
use std::hint::black_box;

/// A request with its header, which a server hashes for each client. From here on what is done once
/// a message weighs little beside the blocks, and sha2's limit is another one.
const PACKET: usize = 1036;

/// Bytes without a pattern, though SHA-512 takes the same time over any.
pub fn bytes(length: usize) -> Vec<u8> {
    let mut state: u64 = 0x5eed;
    let mut next = || {
        state ^= state << 13;
        state ^= state >> 7;
        state ^= state << 17;
        state.to_le_bytes()
    };
    (0..length / 8).flat_map(|_| next()).collect()
}

fn sha512<'a>(name: &str, message: &'a [u8]) -> Subject<'a> {
    let works: Vec<(Side, Work<'a>)> = vec![
        (Side::Ours, work(move || trawlbeacon::sha512(black_box(message)))),
        (Side::Independent, work(move || independent::sha512::sha512(black_box(message)))),
        #[cfg(feature = "peer")]
        (Side::Sha2, work(move || <sha2::Sha512 as sha2::Digest>::digest(black_box(message)))),
    ];
    let by_sha2 = if message.len() < PACKET { "sha2_short" } else { "sha2" };
    Subject::new(name, message.len(), works)
        .held(Side::Independent, "independent")
        .held(Side::Sha2, by_sha2)
}

fn parent<'a>(left: &'a [u8; 32], right: &'a [u8; 32]) -> Subject<'a> {
    let works = [
        work(move || trawlbeacon::parent(black_box(left), black_box(right))),
        work(move || hash::parent(black_box(left), black_box(right))),
    ];
    Subject::of_two("H of a parent", 64, works)
}

fn leaf(packet: &[u8]) -> Subject<'_> {
    let works = [
        work(move || trawlbeacon::leaf(black_box(packet))),
        work(move || hash::leaf(black_box(packet))),
    ];
    Subject::of_two("H of a leaf of 1,036 bytes", packet.len(), works)
}

/// A message in pieces of so many bytes, and the whole at once. What is done for each piece weighs
/// more the shorter they are, so that only long ones have a limit.
fn pieces(message: &[u8], length: usize) -> Subject<'_> {
    let in_pieces = move || {
        let mut hash = trawlbeacon::Sha512::new();
        for piece in black_box(message).chunks(length) {
            hash.update(piece).expect("far fewer than 2^64 bytes");
        }
        hash.finish()
    };
    let works = vec![
        (Side::Ours, work(in_pieces)),
        (Side::Whole, work(move || trawlbeacon::sha512(black_box(message)))),
    ];
    let name = format!("pieces of {} bytes", count(length));
    let subject = Subject::new(name, message.len(), works);
    match length {
        1_000.. => subject.held(Side::Whole, "pieces"),
        _ => subject,
    }
}

const COLUMNS: Columns = Columns {
    unit: "MB/s",
    sides: &[Side::Ours, Side::Independent, Side::Sha2],
    digits: 1,
    show: |length, seconds| length as f64 / seconds / 1e6,
};

const PIECES: Columns = Columns { sides: &[Side::Ours, Side::Whole], ..COLUMNS };

/// Whole messages, and a mebibyte in pieces.
pub fn part(run: &mut Run) {
    let data = bytes(64 << 20);
    let array = |at: usize| data[at..at + 32].try_into().expect("32 bytes");
    let whole = vec![
        sha512("65 bytes (a parent)", &data[..65]),
        sha512("1,036 bytes (our request)", &data[..PACKET]),
        sha512("2,032 bytes (a link)", &data[..2032]),
        sha512("64 MiB", &data),
        parent(array(0), array(32)),
        leaf(&data[..PACKET]),
    ];
    run.table(Table::new("hash", "SHA-512", &["Message"]), &COLUMNS, whole);
    let lengths = [1, 64, 1_000, 65_536];
    let in_pieces = lengths.map(|length| pieces(&data[..1 << 20], length)).into();
    let table = Table::new("pieces", "a mebibyte in pieces", &["A mebibyte in"]);
    run.table(table, &PIECES, in_pieces);
}
