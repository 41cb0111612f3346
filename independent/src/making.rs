//! Making piles: chains of requests and responses in which each is linked to the one before, as a
//! client would gather them from servers that sign whatever it likes.
//!
//! No key signs anything here. The answers about the signatures are yes, since they are the host's
//! and not in the pile.

use crate::hash::{self, Hash};
use crate::pieces::{put, Pieces};
use crate::pile::{at, RECORD};
use crate::tag::{INDX, MAXT, MIDP, MINT, NONC, PATH, PUBK, RADI, ROOT, VERS, ZZZZ};
use crate::value::list;
use crate::{packet, tree, write, VERSION};
use std::ops::RangeInclusive;

/// A pile and the answers beside it.
#[derive(Clone, Debug, PartialEq, Eq)]
pub struct Made {
    /// The pile.
    pub pile: Vec<u8>,
    /// Two bytes a record.
    pub answers: Vec<u8>,
}

/// What is to stand in one record.
#[derive(Clone, Debug, PartialEq, Eq)]
pub struct Link {
    /// The long-term key of the server.
    pub key: [u8; 32],
    /// What blinds the nonce.
    pub rand: [u8; 32],
    /// The nonce, where it is to be another than the one that links the record to the one before
    /// it.
    pub nonce: Option<Hash>,
    /// MIDP.
    pub midp: u64,
    /// RADI.
    pub radi: u32,
    /// PUBK.
    pub pubk: [u8; 32],
    /// MINT.
    pub mint: u64,
    /// MAXT.
    pub maxt: u64,
    /// VER of the request: the versions that the client knows.
    pub asked: Vec<u32>,
    /// VERS: those that the server knows.
    pub listed: Vec<u32>,
    /// How many siblings PATH has, 0 to 32.
    pub siblings: usize,
    /// Bytes of the request, a multiple of 4 from [`LEAST_REQUEST`], and 4 for each version more than
    /// one, to 2,000.
    pub request_size: usize,
    /// Bytes of the response, a multiple of 4 up to 2,000, or as many as it needs where that is
    /// more.
    pub response_size: usize,
}

/// Bytes of a request without padding, from a client that knows one version.
pub const LEAST_REQUEST: usize = 124;

impl Link {
    /// A record with the request that we write and a response as short as it can be. `seed` tells
    /// its key and its rand, which is zero where the seed is.
    pub fn new(seed: u8, midp: u64, radi: u32) -> Self {
        Link {
            key: [seed ^ 0x55; 32],
            rand: [seed; 32],
            nonce: None,
            midp,
            radi,
            pubk: [15; 32],
            mint: 0,
            maxt: u64::MAX,
            asked: vec![VERSION],
            listed: vec![VERSION],
            siblings: 0,
            request_size: 1036,
            response_size: 0,
        }
    }

    /// The nonce of the request that comes after the response `before`, which is empty where
    /// nothing does.
    fn nonce_after(&self, before: &[u8]) -> Hash {
        self.nonce.unwrap_or_else(|| hash::link(before, &self.rand))
    }

    /// The request that comes after the response `before`.
    pub fn request(&self, before: &[u8]) -> Vec<u8> {
        let more = list(&self.asked).len() - list(&[VERSION]).len();
        let padding = self.request_size - LEAST_REQUEST - more;
        write::request_of(&self.asked, &self.key, &self.nonce_after(before), padding)
    }

    /// The response to that request, in pieces. The siblings and INDX are without a pattern, and
    /// ROOT is where they lead.
    pub fn response(&self, request: &[u8], before: &[u8]) -> Pieces {
        let nonce = self.nonce_after(before);
        let path: Vec<Hash> =
            (0..self.siblings).map(|step| hash::h(&[&nonce, &[step as u8]])).collect();
        let any = u32::from_le_bytes([nonce[0], nonce[1], nonce[2], nonce[3]]);
        let indx = (u64::from(any) % (1 << self.siblings)) as u32;
        let root = tree::root_of(&hash::leaf(request), indx, &path);
        let mut pieces = Pieces::good();
        put(&mut pieces.outer, NONC, &nonce);
        put(&mut pieces.outer, PATH, &path.concat());
        put(&mut pieces.outer, INDX, &indx.to_le_bytes());
        put(&mut pieces.srep, MIDP, &self.midp.to_le_bytes());
        put(&mut pieces.srep, RADI, &self.radi.to_le_bytes());
        put(&mut pieces.srep, VERS, &list(&self.listed));
        put(&mut pieces.srep, ROOT, &root);
        put(&mut pieces.dele, PUBK, &self.pubk);
        put(&mut pieces.dele, MINT, &self.mint.to_le_bytes());
        put(&mut pieces.dele, MAXT, &self.maxt.to_le_bytes());
        pad(&mut pieces, self.response_size);
        pieces
    }
}

/// Adds zeros under a tag that means nothing in a response, where the packet is shorter than `size`
/// by as much as that takes.
fn pad(pieces: &mut Pieces, size: usize) {
    let padded = pieces.clone().packet().len() + 8;
    if padded <= size {
        pieces.outer.push((ZZZZ, vec![0; size - padded]));
    }
}

/// The record of these packets, of which neither may have more than 2,000 bytes.
pub fn record(key: &[u8; 32], rand: &[u8; 32], request: &[u8], response: &[u8]) -> Vec<u8> {
    assert!(
        request.len() <= packet::MOST && response.len() <= packet::MOST,
        "a packet does not fit"
    );
    let mut record = vec![0; RECORD];
    let parts: [(usize, &[u8]); 6] = [
        (0, key),
        (at::RAND, rand),
        (at::REQUEST_LENGTH, &(request.len() as u32).to_le_bytes()),
        (at::RESPONSE_LENGTH, &(response.len() as u32).to_le_bytes()),
        (at::REQUEST, request),
        (at::RESPONSE, response),
    ];
    for (start, part) in parts {
        record[start..start + part.len()].copy_from_slice(part);
    }
    record
}

/// The pile of these records, each linked to the one before it, with every signature answered yes.
pub fn chain(links: &[Link]) -> Made {
    let (mut pile, mut before) = (Vec::new(), Vec::new());
    for link in links {
        let request = link.request(&before);
        let response = link.response(&request, &before).packet();
        pile.extend(record(&link.key, &link.rand, &request, &response));
        before = response;
    }
    Made { pile, answers: vec![1; 2 * links.len()] }
}

/// The pile of plain records with these midpoints and radii, all valid and linked, and the first
/// rand zero. Every key may sign at any time.
pub fn pile_of(windows: &[(u64, u32)]) -> Made {
    pile_within(0..=u64::MAX, windows)
}

/// The same, where every key may sign at these times.
pub fn pile_within(times: RangeInclusive<u64>, windows: &[(u64, u32)]) -> Made {
    let (mint, maxt) = times.into_inner();
    let links = windows.iter().enumerate().map(|(i, (midp, radi))| Link {
        mint,
        maxt,
        ..Link::new(i as u8, *midp, *radi)
    });
    chain(&links.collect::<Vec<_>>())
}

#[cfg(test)]
mod tests {
    use super::*;
    use crate::pile;

    #[test]
    fn chains_of_every_shape_are_valid_and_linked() {
        for siblings in 0..=32 {
            for (request_size, response_size) in [(LEAST_REQUEST, 0), (1036, 1036), (2000, 2000)] {
                let shape = |seed| Link {
                    siblings,
                    request_size,
                    response_size,
                    ..Link::new(seed, 1000, 5)
                };
                let Made { pile, answers } = chain(&[shape(0), shape(1)]);
                let judged = pile::judge_all(&pile, &answers).unwrap();
                assert!(
                    judged.iter().all(Result::is_ok) && pile::linked(&pile, 1),
                    "{siblings} siblings"
                );
                let record = pile::read(&pile, &answers).unwrap()[1].record;
                let (request, response) = record.packets().unwrap();
                assert_eq!(request.len(), request_size);
                assert!(
                    response.len() == response_size || response_size < 1450,
                    "{} bytes",
                    response.len()
                );
            }
        }
    }

    #[test]
    fn the_usual_request_is_the_one_that_we_write() {
        let link = Link::new(7, 1000, 5);
        assert_eq!(link.request(&[]), write::request(&link.key, &hash::link(&[], &link.rand)));
    }
}
