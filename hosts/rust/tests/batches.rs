//! A server of draft 19, which was written apart, answers batches of every size: the proved library
//! takes each response to each request, and refuses it where INDX, PATH or ROOT is another. What
//! the library builds of the same leaves is what the server sends.

mod support;

use independent::hash::{self, Hash};
use independent::making::LEAST_REQUEST;
use independent::pieces::{put, Pieces};
use independent::server::Server;
use independent::tag::{INDX, PATH, ROOT};
use independent::{packet, response, write};
use support::packets::number;
use support::pairs::Question;
use support::tally::Tally;
use support::{counted, Xorshift};
use trawlbeacon::{
    Checked, Laid, Placed, Rooted, Window, MOST_LEAVES, MOST_ROWS_LENGTH, REQUEST_LENGTH,
};

const SENT: &str = "as sent";
const TURNED: &str = "INDX bit turned";
const LONG: &str = "INDX too long";
const CHANGED: &str = "sibling changed";
const SWAPPED: &str = "siblings swapped";
const DRAFT_13: &str = "draft 13's ROOT";

/// How many requests the batches have: 1 to 65, and then numbers around the next powers of two, up
/// to the most, and what a class on a Saturday brings.
fn sizes() -> impl Iterator<Item = usize> {
    (1..=65).chain([511, 512, 513, 900, MOST_LEAVES - 1, MOST_LEAVES])
}

/// A number that goes by the depth of a tree, summed over all leaves of these batches. The depth of
/// `count` leaves is the least d with 2^d places for them.
fn over_all(by_depth: fn(usize) -> usize) -> usize {
    let depth = |count: usize| count.next_power_of_two().trailing_zeros() as usize;
    sizes().map(|count| count * by_depth(depth(count))).sum()
}

/// A request, and what the server sends for it.
struct Sent {
    request: Vec<u8>,
    pieces: Pieces,
    indx: u32,
    path: Vec<Hash>,
    root: Hash,
    checked: Checked,
}

impl Sent {
    /// INDX, PATH and ROOT are taken from the packet, by what reads responses.
    fn new(request: &[u8], pieces: Pieces, checked: Checked) -> Self {
        let packet = pieces.clone().packet();
        let response = response::read(&packet).expect("the server sends responses");
        let (indx, path, root) = (response.outer.indx, response.outer.path, response.srep.root);
        Sent { request: request.to_vec(), pieces, indx, path, root, checked }
    }

    fn with_indx(&self, indx: u32) -> Pieces {
        let mut pieces = self.pieces.clone();
        put(&mut pieces.outer, INDX, &indx.to_le_bytes());
        pieces
    }

    fn with_path(&self, path: &[Hash]) -> Pieces {
        let mut pieces = self.pieces.clone();
        put(&mut pieces.outer, PATH, &path.concat());
        pieces
    }

    /// With the ROOT that the path leads to for the same INDX in the order of draft 13: at a bit of
    /// 0 the sibling first.
    fn with_draft_13s_root(&self) -> Pieces {
        let mut root = hash::leaf(&self.request);
        for (step, sibling) in self.path.iter().enumerate() {
            root = match self.indx >> step & 1 {
                0 => hash::parent(sibling, &root),
                _ => hash::parent(&root, sibling),
            };
        }
        let mut pieces = self.pieces.clone();
        put(&mut pieces.srep, ROOT, &root);
        pieces
    }
}

struct Comparison {
    tally: Tally,
    random: Xorshift,
    /// How many leaves the library built the same path for.
    built: usize,
}

impl Comparison {
    /// Some server, at any time of its delegation.
    fn server(&mut self) -> Server {
        let random = &mut self.random;
        let mut times = [number(random), number(random), number(random)];
        times.sort_unstable();
        let [mint, midp, maxt] = times;
        let [signature, delegation] =
            [(); 2].map(|()| random.bytes(64).try_into().expect("64 bytes were asked for"));
        let radi = 1.max(number(random) as u32);
        Server { midp, radi, pubk: random.array(), mint, maxt, delegation, signature }
    }

    /// A request that is as long as the one that we write, or longer. No response to it is longer
    /// than it, so that a server may answer it.
    fn request(&mut self) -> Vec<u8> {
        let more = 4 * self.random.below((packet::MOST - REQUEST_LENGTH) / 4 + 1);
        let padding = REQUEST_LENGTH + more - LEAST_REQUEST;
        write::padded_request(&self.random.array(), &self.random.array(), padding)
    }

    /// What some server sends for these requests. What is due is by its own numbers and its key.
    fn sent(&mut self, requests: &[Vec<u8>]) -> Vec<Sent> {
        let server = self.server();
        let (midp, radi, wide) = (server.midp, server.radi, u64::from(server.radi));
        let (low, high) = (midp.saturating_sub(wide), midp.saturating_add(wide));
        let window = Window { midp, radi, low, high, mint: server.mint, maxt: server.maxt };
        let checked = Checked { window, pubk: server.pubk };
        let pieces = server.pieces(requests).expect("these are 1 to 1,024 good requests");
        let pairs = requests.iter().zip(pieces);
        pairs.map(|(request, pieces)| Sent::new(request, pieces, checked)).collect()
    }

    /// Has both sides check a response to the request. Where it is taken, its window and its key
    /// must be right.
    fn ask(&mut self, column: &str, sent: &Sent, pieces: Pieces, due: u32) {
        let (request, response) = (sent.request.clone(), pieces.packet());
        let question = Question { request, response, delegation: true, signature: true };
        let both = question.ask();
        self.tally.answer(column, &both, Some(due), || question.show());
        if due == 0 && both.ours != Ok(sent.checked) {
            self.tally.differs(format!(
                "{:?} instead of {:?}, for {}",
                both.ours,
                sent.checked,
                question.show()
            ));
        }
    }

    /// What the library builds of the leaves, against what the server sends.
    fn build(&mut self, sent: &[Sent]) {
        let leaves: Vec<u8> =
            sent.iter().flat_map(|sent| trawlbeacon::leaf(&sent.request)).collect();
        let (depth, root) = (sent[0].path.len(), sent[0].root);
        assert_eq!(trawlbeacon::root(&leaves), Ok(Rooted { depth, root }));
        let mut rows = [0; MOST_ROWS_LENGTH];
        let length = 32 * ((2 << depth) - 1);
        assert_eq!(trawlbeacon::rows(&leaves, &mut rows), Ok(Laid { depth, length }));
        let rows = &rows[..length];
        assert_eq!(rows[rows.len() - 32..], root, "{} leaves", sent.len());
        for (place, Sent { indx, path, root: same, .. }) in sent.iter().enumerate() {
            let (mut out, mut out_too) = (vec![0; 32 * depth], vec![0; 32 * depth]);
            let placed = trawlbeacon::path(&leaves, place, &mut out);
            let placed_too = trawlbeacon::path_from(rows, sent.len(), place, &mut out_too);
            let due = Ok(Placed { indx: *indx, depth });
            assert_eq!((placed, placed_too), (due, due), "place {place} of {}", sent.len());
            assert_eq!((&out, &out_too, same), (&path.concat(), &path.concat(), &root));
            assert_eq!(*indx as usize, place);
            self.built += 1;
        }
    }
}

/// Requests that differ, so that on the way up from a leaf every node differs from its sibling. So
/// each bit of INDX and each place in PATH counts, and draft 13's order leads elsewhere wherever
/// there is a sibling.
fn different_requests(seen: &mut Comparison) {
    for count in sizes() {
        let requests: Vec<Vec<u8>> = (0..count).map(|_| seen.request()).collect();
        let batch = seen.sent(&requests);
        seen.build(&batch);
        for sent in &batch {
            seen.ask(SENT, sent, sent.pieces.clone(), 0);
            other_numbers(seen, sent);
            other_siblings(seen, sent);
            let due = if sent.path.is_empty() { 0 } else { 10 };
            seen.ask(DRAFT_13, sent, sent.with_draft_13s_root(), due);
        }
    }
}

/// Each bit of INDX that a sibling takes turned, and the next bit set, which none takes.
fn other_numbers(seen: &mut Comparison, sent: &Sent) {
    let depth = sent.path.len();
    for bit in 0..depth {
        seen.ask(TURNED, sent, sent.with_indx(sent.indx ^ 1 << bit), 10);
    }
    seen.ask(LONG, sent, sent.with_indx(sent.indx | 1 << depth), 10);
}

/// A byte of each sibling changed, and each two that differ swapped.
fn other_siblings(seen: &mut Comparison, sent: &Sent) {
    for step in 0..sent.path.len() {
        let mut path = sent.path.clone();
        path[step][seen.random.below(32)] ^= 1 + seen.random.below(255) as u8;
        seen.ask(CHANGED, sent, sent.with_path(&path), 10);
        for lower in (0..step).filter(|lower| sent.path[*lower] != sent.path[step]) {
            let mut path = sent.path.clone();
            path.swap(lower, step);
            seen.ask(SWAPPED, sent, sent.with_path(&path), 10);
        }
    }
}

/// One request over and over. Both orders are the same at a step where the two children are equal.
/// That is so at every step, and then draft 13's ROOT is the right one, where the batch fills all
/// places: where the number of its requests is a power of two. With any other number an empty place
/// is below the right child of the root and none below the left one, so that they differ.
fn equal_requests(seen: &mut Comparison) {
    for count in sizes() {
        let request = seen.request();
        let batch = seen.sent(&vec![request; count]);
        seen.build(&batch);
        for sent in &batch {
            seen.ask(SENT, sent, sent.pieces.clone(), 0);
            let due = if count.is_power_of_two() { 0 } else { 10 };
            seen.ask(DRAFT_13, sent, sent.with_draft_13s_root(), due);
        }
    }
}

type Group = (&'static str, fn(&mut Comparison));

#[test]
fn responses_of_a_draft_19_server_are_taken() {
    let tally = Tally::new(&[SENT, TURNED, LONG, CHANGED, SWAPPED, DRAFT_13]);
    let mut seen = Comparison { tally, random: Xorshift::new(0x5eed_0b01), built: 0 };
    let groups: [Group; 2] = [
        (
            "batches of 1 to 65, 511 to 513, 900, 1,023 and 1,024 different requests, every leaf",
            different_requests,
        ),
        (
            "batches of 1 to 65, 511 to 513, 900, 1,023 and 1,024 equal requests, every leaf",
            equal_requests,
        ),
    ];
    for (name, group) in groups {
        let before = seen.tally.answers();
        group(&mut seen);
        println!("{:>8} responses: {name}", seen.tally.answers() - before);
    }
    println!(
        "responses of a draft 19 server, ours compared with independent; how often each code was \
         given:"
    );
    println!("{}", seen.tally.table("code"));
    println!("{} leaves: the library builds the root, INDX and PATH that were sent", seen.built);
    seen.tally.no_difference();
    let leaves: usize = sizes().sum();
    assert_eq!(seen.built, 2 * leaves);
    seen.tally.at_least(2 * leaves, SENT, [0]);
    seen.tally.at_least(over_all(|depth| depth), TURNED, [10]);
    seen.tally.at_least(over_all(|depth| depth), CHANGED, [10]);
    seen.tally.at_least(leaves, LONG, [10]);
    // No two siblings of a path are equal, since they are roots of trees of different depths.
    seen.tally.at_least(over_all(|depth| depth * depth.saturating_sub(1) / 2), SWAPPED, [10]);
    // Of the different requests only the one that is alone has no sibling. Of the equal ones these
    // are in batches that fill all places.
    let full: usize = sizes().filter(|count| count.is_power_of_two()).sum();
    seen.tally.at_least(leaves - 1 + leaves - full, DRAFT_13, [10]);
    seen.tally.at_least(1 + full, DRAFT_13, [0]);
    counted(seen.tally.answers(), "responses to batches, right and changed");
}
