//! Inputs that could take an operation long, and usual ones of the same size.

use crate::lists;
use crate::operations::Input;
use crate::piles::{Shape, FULL};
use crate::signed::Signer;
use crate::texts::Report;
use crate::verifying::Signed;
use independent::making::{self, Link, Made};
use independent::pieces::{Pairs, Pieces};
use independent::tag::Tag;
use independent::{lengthy, lengthy_lists, packet};
use trawlbeacon::LISTED_SERVERS;

/// The most tags that a message may have.
const MOST_TAGS: usize = 32;

/// Before every tag that means something, and behind all of them.
const FIRST: Tag = 1;
const LAST: Tag = 0x7000_0000;

/// Fills a message up with empty values under tags that mean nothing.
fn crowd(pairs: &mut Pairs, from: Tag, count: usize) {
    let more = count.saturating_sub(pairs.len());
    pairs.extend((0..more).map(|place| (from + place as Tag, Vec::new())));
    pairs.sort_by_key(|pair| pair.0);
}

/// Makes a response 2,000 bytes long, by zeros under a tag that means nothing.
fn fill(pieces: &mut Pieces, from: Tag) {
    let short = packet::MOST - pieces.clone().packet().len();
    match pieces.outer.iter_mut().find(|pair| pair.0 == from) {
        Some(pair) => pair.1 = vec![0; short],
        None => pieces.outer.push((LAST, vec![0; short - 8])),
    }
}

/// How a response may be crowded.
#[derive(Clone, Copy)]
enum Crowd {
    /// With 32 tags in each of the four messages, which leaves no room for siblings.
    Four(Tag),
    /// With as many tags as there is room for beside 32 siblings.
    Beside(Tag),
    None,
}

impl Crowd {
    fn put(self, pieces: &mut Pieces) {
        let (from, counts) = match self {
            Crowd::Four(from) => (from, [MOST_TAGS; 4]),
            Crowd::Beside(from) => (from, [MOST_TAGS, MOST_TAGS, 20, 0]),
            Crowd::None => (LAST, [0; 4]),
        };
        let Pieces { outer, srep, cert, dele } = pieces;
        for (pairs, count) in [outer, srep, cert, dele].into_iter().zip(counts) {
            crowd(pairs, from, count);
        }
        fill(pieces, from);
    }
}

/// A link whose request has 2,000 bytes, and whose response has no padding yet.
fn link(place: u8, siblings: usize) -> Link {
    let (request_size, response_size) = (packet::MOST, 0);
    Link { siblings, request_size, response_size, ..Link::new(place, 1_000, 10) }
}

/// A request and its response, of 2,000 bytes each.
fn exchange(link: &Link, crowd: Crowd) -> Vec<Vec<u8>> {
    let request = link.request(&[]);
    let mut pieces = link.response(&request, &[]);
    crowd.put(&mut pieces);
    vec![request, pieces.packet()]
}

/// A client and a server that know 32 versions each, of which only ours is known to both.
fn versed() -> Link {
    let known = |from: u32| std::iter::once(1).chain(from..from + 31).collect();
    Link { asked: known(100), listed: known(200), ..link(0, 32) }
}

/// The usual response has no siblings and is padded.
pub fn usual_exchange() -> Input {
    Input::new("padded", exchange(&link(0, 0), Crowd::None))
}

pub fn exchanges() -> Vec<Input> {
    let of = |name: &str, link: Link, crowd| Input::new(name, exchange(&link, crowd));
    vec![
        of("32 siblings", link(0, 32), Crowd::None),
        of("32 tags a message, needed last", link(0, 0), Crowd::Four(FIRST)),
        of("32 tags a message, needed first", link(0, 0), Crowd::Four(LAST)),
        of("32 siblings, tags, needed last", link(0, 32), Crowd::Beside(FIRST)),
        of("32 siblings, tags, needed first", link(0, 32), Crowd::Beside(LAST)),
        of("32 siblings, 32 versions twice", versed(), Crowd::None),
    ]
}

/// Requests with as many tags or versions as may be.
pub fn requests() -> Vec<Input> {
    let crowded = |name: &str, from: Tag| {
        let nonce = (independent::tag::NONC, vec![7; 32]);
        let kind = (independent::tag::TYPE, vec![0; 4]);
        let mut pairs: Pairs = vec![(independent::tag::VER, vec![1, 0, 0, 0]), nonce, kind];
        crowd(&mut pairs, from, MOST_TAGS);
        let length = packet::encode(&independent::message::encode(&pairs)).len();
        let filled = pairs.iter_mut().find(|pair| pair.0 == from).expect("there is such a tag");
        filled.1 = vec![0; packet::MOST - length];
        Input::new(name, vec![packet::encode(&independent::message::encode(&pairs))])
    };
    vec![
        crowded("32 tags, needed last", FIRST),
        crowded("32 tags, needed first", LAST),
        Input::new("32 versions", vec![versed().request(&[])]),
    ]
}

fn of_made(name: &str, made: Made) -> Input {
    Input::new(name, vec![made.pile, made.answers])
}

/// The usual pile has our requests, and responses to small batches.
pub fn usual_pile() -> Input {
    let links: Vec<Link> = Shape { siblings: 4, packet: 1036, ..FULL }.links();
    of_made("our requests, 4 siblings", making::chain(&links))
}

/// Full records, each linked to the one before it, with crowded responses.
fn crowded(links: &[Link], crowd: Crowd) -> Made {
    let (mut pile, mut before) = (Vec::new(), Vec::new());
    for link in links {
        let request = link.request(&before);
        let mut pieces = link.response(&request, &before);
        crowd.put(&mut pieces);
        before = pieces.packet();
        pile.extend(making::record(&link.key, &link.rand, &request, &before));
    }
    Made { pile, answers: vec![1; 2 * links.len()] }
}

/// Records of which every second one tells a window that ends where those of the others begin: each
/// of the first kind all but contradicts every later one of the second, and none does.
fn nearly() -> Vec<Link> {
    let of = |place: usize| {
        let midp = if place % 2 == 0 { 1_000 } else { 980 };
        Link { midp, ..link(place as u8, 32) }
    };
    (0..FULL.records).map(of).collect()
}

/// Piles of full records with 32 siblings.
pub fn piles() -> Vec<Input> {
    let padded: Vec<Link> =
        nearly().into_iter().map(|link| Link { response_size: packet::MOST, ..link }).collect();
    vec![
        of_made("the ends contradict", FULL.made()),
        of_made("all nearly contradict", making::chain(&padded)),
        of_made("nearly, tags, needed last", crowded(&nearly(), Crowd::Beside(FIRST))),
        of_made("nearly, tags, needed first", crowded(&nearly(), Crowd::Beside(LAST))),
    ]
}

/// The same of piles that are signed, the usual one first.
pub fn signed_piles() -> (Input, Vec<Input>) {
    let signer = Signer::new();
    let of = |name: &str, shape| Input::new(name, vec![signer.pile(shape)]);
    let usual = of("our requests, 4 siblings", Shape { siblings: 4, packet: 1036, ..FULL });
    (usual, vec![of("32 siblings", FULL)])
}

/// The longest report.
pub fn usual_text() -> Input {
    Input::new("the longest report", vec![Report::of(FULL.records).text, vec![1; 32]])
}

/// A text with every character of its strings, none of which is an escape yet, as an escape of six.
fn escaped(plain: Vec<u8>) -> Vec<u8> {
    let (mut text, mut within) = (String::new(), false);
    for byte in plain {
        match byte {
            b'"' => {
                within = !within;
                text.push('"');
            }
            _ if within => text += &format!("\\u{byte:04x}"),
            _ => text.push(byte as char),
        }
    }
    text.into_bytes()
}

/// Texts of so many bytes that could take a reader long, of every kind there is, and one of
/// escapes.
pub fn texts(length: usize) -> Vec<Input> {
    let of = |(name, text): (&str, Vec<u8>)| Input::new(name, vec![text, vec![1; 32]]);
    let escapes = escaped(Report::of(2).text);
    let escaped = Input::new("a report of escapes", vec![escapes, vec![1; 4]]);
    lengthy::texts(length).into_iter().map(of).chain([escaped]).collect()
}

/// The longest list of servers.
pub fn usual_list() -> Input {
    Input::new("the longest list", vec![lists::list(LISTED_SERVERS)])
}

/// The same of lists: of every kind there is, and one of escapes.
pub fn lists(length: usize) -> Vec<Input> {
    let of = |(name, text): (&str, Vec<u8>)| Input::new(name, vec![text]);
    let escapes = escaped(lists::list(LISTED_SERVERS / 5));
    let escaped = Input::new("a list of escapes", vec![escapes]);
    lengthy_lists::texts(length).into_iter().map(of).chain([escaped]).collect()
}

/// So many leaves.
pub fn leaves(count: usize) -> Input {
    Input::new(format!("{count} leaves"), vec![crate::hashes::bytes(32 * count)])
}

/// A list of so many servers, in which the one that is sought stands at this place, if anywhere.
/// Every value of the list has all but the last byte of the one that is sought.
pub fn servers(name: &str, count: usize, place: Option<usize>) -> Input {
    let sought = vec![9; 32];
    let mut list: Vec<u8> = (0..count).flat_map(|_| [[1; 32], [9; 32]].concat()).collect();
    for at in (0..count).filter(|at| Some(*at) != place) {
        list[64 * at + 63] = 8;
    }
    Input::new(name, vec![Vec::new(), list, sought])
}

/// A signature that verifies, of a text of so many bytes.
pub fn signature(length: usize) -> Input {
    let Signed { key, text, signature } = Signed::of(length);
    Input::new("it verifies", vec![key.to_vec(), text, signature.to_vec()])
}

/// A signature whose S is 2^252 - 1: of all numbers below the group's order it has the most bits
/// that are 1, and each of them costs an addition.
pub fn dense_signature(length: usize) -> Input {
    let mut input = signature(length);
    let s = &mut input.parts[2][32..];
    s.fill(0xff);
    s[31] = 0x0f;
    Input::new("S is 2^252 - 1", input.parts)
}
