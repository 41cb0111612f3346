//! `samples DIR` writes piles and their answers into DIR, the same in every run: NAME.pile and
//! NAME.answers, for the programs that print a verdict to be tried with, and piles alone whose
//! signatures are real. It prints the names of the files, a pair or a pile a line.

use independent::appendix;
use independent::ed25519::Ed25519;
use independent::making::{self, pile_of, pile_within, Link, Made};
use independent::pieces::{put, Pieces};
use independent::pile::RECORD;
use independent::signing::{self, Keys};
use independent::tag::{MAXT, NONC, ROOT, SIG, TYPE};
use std::fs::{self, File};
use std::io::{self, Write};
use std::path::Path;
use std::{env, process};

/// Changes what a response says so that it is refused with this code, where that is its own fault.
fn spoil_pieces(code: u8, pieces: &mut Pieces) {
    match code {
        5 => pieces.outer.swap(0, 1),
        6 => pieces.outer.retain(|pair| pair.0 != SIG),
        7 => put(&mut pieces.outer, SIG, &[0; 60]),
        8 => put(&mut pieces.outer, TYPE, &[0; 4]),
        9 => put(&mut pieces.outer, NONC, &[0; 32]),
        10 => put(&mut pieces.srep, ROOT, &[0; 32]),
        11 => put(&mut pieces.dele, MAXT, &999u64.to_le_bytes()),
        _ => (),
    }
}

/// The same, where it is the fault of its bytes.
fn spoil_response(code: u8, response: &mut Vec<u8>) {
    match code {
        1 => response.truncate(8),
        2 => response[0] ^= 1,
        3 => response[8] ^= 4,
        // The number of pairs.
        4 => response[12] = 0,
        _ => (),
    }
}

/// A record that is refused with this code, and the answers about it. It comes after no other.
fn refused(code: u8) -> Made {
    let link = Link::new(code, 1000, 5);
    let mut request = link.request(&[]);
    let mut pieces = link.response(&request, &[]);
    spoil_pieces(code, &mut pieces);
    if code == 14 {
        request[0] ^= 1;
    }
    let mut response = pieces.packet();
    spoil_response(code, &mut response);
    let mut pile = making::record(&link.key, &link.rand, &request, &response);
    if code == 16 {
        pile[RECORD - 1] = 1;
    }
    Made { pile, answers: vec![u8::from(code != 12), u8::from(code != 13)] }
}

/// A record for each code that one can be refused with, and a good one. Code 15 is that of a whole
/// pile, so the good one stands where it would.
fn every_code() -> Made {
    let records: Vec<Made> = (1..=16).map(refused).collect();
    Made {
        pile: records.iter().flat_map(|made| made.pile.clone()).collect(),
        answers: records.iter().flat_map(|made| made.answers.clone()).collect(),
    }
}

/// The most records, in all sizes of packets and with windows at both ends of time.
fn most() -> Made {
    let windows = |i: u64| if i < 8 { (i, 3) } else { (u64::MAX - 20 * (i - 8), 9) };
    let link = |i: u64| {
        let (midp, radi) = windows(i);
        let (siblings, size) = (2 * i as usize, 1040 + 64 * i as usize);
        Link { siblings, request_size: size, response_size: size, ..Link::new(i as u8, midp, radi) }
    };
    making::chain(&(0..16).map(link).collect::<Vec<_>>())
}

/// A bad record in the middle, with a longer run before it than beyond it.
fn beyond() -> Made {
    let mut made = pile_of(&[(300, 1), (295, 20), (280, 1), (200, 1), (100, 1), (90, 1)]);
    made.answers[2 * 3] = 0;
    made
}

/// Linked records of which the first three and the last are refused: both sides know a higher
/// version, VERS lacks that of the response, the radius is 0, both know 32 versions. The others know
/// higher versions that the other side does not, and contradict each other.
fn versions() -> Made {
    let draft = 0x8000_000c;
    let many: Vec<u32> = (1..=32).collect();
    let records: [(&[u32], &[u32], u64, u32); 6] = [
        (&[1, 2], &[1, 2], 300, 1),
        (&[1], &[2], 200, 1),
        (&[1], &[1], 150, 0),
        (&[1, 2], &[1, draft], 100, 1),
        (&[1, draft], &[0, 1], 90, 1),
        (&many, &many, 80, u32::MAX),
    ];
    let links = records.iter().enumerate().map(|(i, (asked, listed, midp, radi))| Link {
        asked: asked.to_vec(),
        listed: listed.to_vec(),
        ..Link::new(i as u8, *midp, *radi)
    });
    making::chain(&links.collect::<Vec<_>>())
}

/// Records whose keys may sign for some time only: up to MIDP, from it on, at that one second, or
/// long before and after it. No two have the same key.
fn delegations() -> Made {
    let records = [
        (1000, 10, 0, 1000),
        (1500, 10, 1500, u64::MAX),
        (1495, 1, 1495, 1495),
        (1400, 10, 7, 20_000_000_000),
    ];
    let links = records.iter().enumerate().map(|(i, (midp, radi, mint, maxt))| Link {
        pubk: [i as u8; 32],
        mint: *mint,
        maxt: *maxt,
        ..Link::new(i as u8, *midp, *radi)
    });
    making::chain(&links.collect::<Vec<_>>())
}

/// Servers that sign, each with keys of its own.
struct Signers {
    ed25519: Ed25519,
    servers: Vec<Keys>,
}

impl Signers {
    fn new() -> Self {
        let ed25519 = Ed25519::new();
        let servers = (1..=3).map(|seed| Keys::new(&ed25519, [seed; 32], [0x40 + seed; 32]));
        Signers { servers: servers.collect(), ed25519 }
    }

    /// The servers take turns.
    fn server(&self, place: usize) -> &Keys {
        &self.servers[place % self.servers.len()]
    }

    /// The pile of these midpoints and radii, all valid by their signatures, linked, and the first
    /// rand zero.
    fn pile(&self, windows: &[(u64, u32)]) -> Vec<u8> {
        let link = |(i, (midp, radi)): (usize, &(u64, u32))| Link {
            mint: 900,
            maxt: 2000,
            ..Link::new(i as u8, *midp, *radi)
        };
        let links: Vec<Link> = windows.iter().enumerate().map(link).collect();
        signing::chain(&self.ed25519, &links, |place| self.server(place))
    }

    /// Four records, of which the two in the middle contradict each other.
    fn middle(&self) -> Vec<u8> {
        self.pile(&[(1000, 10), (1500, 10), (1400, 10), (1405, 10)])
    }

    /// The same with one of them forged. The record behind it is linked to what it was, so that it
    /// is not linked any more where its response is another.
    fn forged(&self, place: usize, forge: impl Fn(&Self, &mut [u8])) -> Vec<u8> {
        let mut pile = self.middle();
        forge(self, &mut pile[place * RECORD..(place + 1) * RECORD]);
        pile
    }

    /// A record that is refused with this code, with real signatures but for 12 and 13, and a good
    /// one for 15. It comes after no other.
    fn refused(&self, code: u8) -> Vec<u8> {
        let keys = self.server(usize::from(code));
        let key = keys.long_term.public;
        let link = Link { key, ..Link::new(code, 1000, 5) };
        let mut request = link.request(&[]);
        let mut pieces = link.response(&request, &[]);
        spoil_pieces(code, &mut pieces);
        keys.sign(&self.ed25519, &mut pieces);
        match code {
            7 => put(&mut pieces.outer, SIG, &[0; 60]),
            12 => put(&mut pieces.cert, SIG, &[0x33; 64]),
            13 => put(&mut pieces.outer, SIG, &[0x33; 64]),
            14 => request[0] ^= 1,
            _ => (),
        }
        let mut response = pieces.packet();
        spoil_response(code, &mut response);
        let mut record = making::record(&key, &link.rand, &request, &response);
        if code == 16 {
            record[RECORD - 1] = 1;
        }
        record
    }
}

/// Where things stand in a record whose response has no tag but those that it needs, and no
/// siblings.
mod at {
    pub const SIG: usize = 2096 + 68;
    pub const CERT_SIG: usize = 2096 + 276;
}

/// Piles that are judged by their own signatures.
fn signed_samples() -> Vec<(&'static str, Vec<u8>)> {
    let signers = Signers::new();
    let key = signers.server(0).long_term.public;
    vec![
        ("signed2", signers.pile(&[(1000, 5), (990, 4)])),
        ("signed4", signers.middle()),
        ("forged-response", signers.forged(2, |_, record| record[at::SIG] ^= 1)),
        ("forged-delegation", signers.forged(1, |_, record| record[at::CERT_SIG] ^= 1)),
        ("other-server", signers.forged(2, |_, record| record[..32].copy_from_slice(&key))),
        ("signed-norun", signers.pile(&[(1000, 5), (1010, 5), (1020, 5)])),
        ("signed-codes", (1..=16).flat_map(|code| signers.refused(code)).collect()),
    ]
}

/// Two records that contradict each other, with one between them that was not linked.
fn unlinked() -> Made {
    let mut made = pile_of(&[(100, 1), (95, 20), (80, 1)]);
    made.pile[RECORD + 32] ^= 1;
    made
}

fn samples() -> Vec<(&'static str, Made)> {
    let one = pile_of(&[(1000, 5)]);
    let longer = Made { pile: [&one.pile[..], &[0]].concat(), ..one.clone() };
    vec![
        ("example5", pile_within(0..=2000, &[(1000, 10), (1500, 10), (1495, 1), (1400, 10)])),
        ("example6", pile_of(&[(100, 1), (90, 1), (80, 1)])),
        ("example7", pile_of(&[(100, 1), (95, 20), (80, 1)])),
        ("codes", every_code()),
        ("most", most()),
        ("over", Made { pile: vec![0; 17 * RECORD], answers: vec![1; 34] }),
        ("empty", Made { pile: vec![], answers: vec![] }),
        ("count", Made { answers: vec![1; 3], ..one.clone() }),
        ("byte2", Made { answers: vec![1, 2], ..one.clone() }),
        ("longer", longer),
        ("one", one),
        ("appendix", appendix::pile()),
        ("beyond", beyond()),
        ("unlinked", unlinked()),
        ("versions", versions()),
        ("delegations", delegations()),
        ("norun", pile_of(&[(80, 1), (90, 1), (100, 1)])),
    ]
}

/// Writes a file whole or not at all: as long as it is not whole and on the disk, it has another
/// name.
fn put_file(file: &Path, bytes: &[u8]) -> io::Result<()> {
    let beside = file.with_extension("new");
    let fill = |mut new: File| new.write_all(bytes).and_then(|()| new.sync_all());
    let put = File::create(&beside).and_then(fill).and_then(|()| fs::rename(&beside, file));
    if put.is_err() {
        // It was made here, or is not there.
        let _ = fs::remove_file(&beside);
    }
    put
}

fn write(folder: &Path) -> io::Result<()> {
    fs::create_dir_all(folder)?;
    for (name, Made { pile, answers }) in samples() {
        put_file(&folder.join(format!("{name}.pile")), &pile)?;
        put_file(&folder.join(format!("{name}.answers")), &answers)?;
        println!("{name}.pile {name}.answers");
    }
    for (name, pile) in signed_samples() {
        put_file(&folder.join(format!("{name}.pile")), &pile)?;
        println!("{name}.pile");
    }
    Ok(())
}

fn main() {
    let Some(folder) = env::args_os().nth(1) else {
        eprintln!("usage: samples DIR");
        process::exit(2);
    };
    if let Err(error) = write(Path::new(&folder)) {
        eprintln!("samples: {error}");
        process::exit(1);
    }
}

#[cfg(test)]
mod tests {
    use super::*;
    use std::io::Read;

    /// Who reads the old file meanwhile reads it to its end; and what cannot be put leaves nothing.
    #[test]
    fn a_file_is_put_in_one_step() {
        let folder = env::temp_dir().join(format!("samples-{}", process::id()));
        fs::create_dir(&folder).expect("the folder of a test");
        let file = folder.join("one.pile");
        put_file(&file, b"the old one").expect("it can be written");
        let mut reader = File::open(&file).expect("it is there");
        put_file(&file, b"new").expect("it can be written");
        let mut old = Vec::new();
        reader.read_to_end(&mut old).expect("it can be read");
        let new = fs::read(&file).expect("it is there");
        fs::create_dir(folder.join("two.pile")).expect("it can be made");
        let refused = put_file(&folder.join("two.pile"), b"no file");
        let left = fs::read_dir(&folder).expect("it is there").count();
        fs::remove_dir_all(&folder).expect("it is the test's");
        assert_eq!((&old[..], &new[..]), (&b"the old one"[..], &b"new"[..]));
        assert!(refused.is_err() && left == 2, "{left} names are left");
    }
}
