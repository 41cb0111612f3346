//! A server that answers a batch: the leaves of the requests and all rows of their tree; the path
//! of each leaf; SREP once and the response to each request; and the whole. Signing is left out, of
//! which there is one for all.
//!
//! No buffer is cleared between runs.

use crate::run::{Line, Run};
use crate::sides::{work, Side, Subject, Work};
use crate::table::{count, number, Table};
use independent::hash::Hash;
use independent::respond;
use independent::tree::{Placed, Tree};
use std::hint::black_box;
use trawlbeacon::{Reply, CERT_LENGTH, MOST_ROWS_LENGTH, REQUEST_LENGTH, SREP_LENGTH};

/// The batch that is held to a limit and shown by its parts, as a class on a Saturday brings it.
const BATCH: usize = 900;

/// Batches of the powers of four, and that one.
const BATCHES: [usize; 7] = [1, 4, 16, 64, 256, BATCH, 1024];

const MIDP: u64 = 1_773_685_571;
const RADI: u32 = 3;

/// What a server has before it answers, and what it has worked out on the way.
pub struct Round {
    requests: Vec<Vec<u8>>,
    cert: [u8; CERT_LENGTH],
    signature: [u8; 64],
    rows: Vec<u8>,
    root: Hash,
    paths: Vec<Vec<u8>>,
}

fn leaves(requests: &[Vec<u8>]) -> Vec<u8> {
    requests.iter().flat_map(|request| trawlbeacon::leaf(request)).collect()
}

/// The rows of the tree, and where they end.
fn lay(leaves: &[u8], rows: &mut [u8]) -> usize {
    trawlbeacon::rows(leaves, rows).expect("there are leaves, and there is room").length
}

fn path(rows: &[u8], leaves: usize, place: usize, out: &mut [u8]) -> usize {
    32 * trawlbeacon::path_from(rows, leaves, place, out).expect("there is such a leaf").depth
}

impl Round {
    /// With a batch of so many.
    pub fn new(batch: usize) -> Self {
        let mut requests = vec![vec![0; REQUEST_LENGTH]; batch];
        for (client, request) in requests.iter_mut().enumerate() {
            let nonce = trawlbeacon::leaf(&client.to_le_bytes());
            trawlbeacon::write_request(&[1; 32], &nonce, request).expect("there is room");
        }
        let (mut cert, signature) = ([0; CERT_LENGTH], [6; 64]);
        trawlbeacon::write_cert(&[4; 32], MIDP, MIDP, &[5; 64], &mut cert).expect("there is room");
        let mut rows = vec![0; MOST_ROWS_LENGTH];
        let end = lay(&leaves(&requests), &mut rows);
        rows.truncate(end);
        let root = rows[end - 32..].try_into().expect("the root is the last node");
        let paths = (0..batch).map(|place| {
            let mut out = vec![0; 320];
            let length = path(&rows, batch, place, &mut out);
            out.truncate(length);
            out
        });
        Round { paths: paths.collect(), requests, cert, signature, rows, root }
    }

    fn batch(&self) -> usize {
        self.requests.len()
    }

    fn tree(&self) -> Work<'_> {
        let mut rows = vec![0; MOST_ROWS_LENGTH];
        work(move || lay(&leaves(black_box(&self.requests)), &mut rows))
    }

    fn tree_there(&self) -> Work<'_> {
        work(move || build(black_box(&self.requests)))
    }

    fn all_paths(&self) -> Work<'_> {
        let mut out = [0; 320];
        work(move || {
            for place in 0..self.batch() {
                black_box(path(black_box(&self.rows), self.batch(), place, &mut out));
            }
        })
    }

    fn all_paths_there(&self) -> Work<'_> {
        let tree = build(&self.requests);
        work(move || {
            for place in 0..self.batch() {
                black_box(placed(black_box(&tree), place));
            }
        })
    }

    /// The response for a place, with these siblings.
    fn write(&self, place: usize, path: &[u8], out: &mut [u8]) -> usize {
        let reply = Reply {
            request: &self.requests[place],
            indx: place as u32,
            root: &self.root,
            path,
            midp: MIDP,
            radi: RADI,
            cert: &self.cert,
            signature: &self.signature,
        };
        trawlbeacon::write_response(black_box(&reply), out).expect("it can be answered")
    }

    fn write_there(&self, place: usize, path: &[u8]) -> Vec<u8> {
        let reply = respond::Reply {
            request: &self.requests[place],
            indx: place as u32,
            root: self.root,
            path,
            midp: MIDP,
            radi: RADI,
            cert: &self.cert,
            signature: self.signature,
        };
        respond::response(black_box(&reply)).expect("it can be answered")
    }

    fn writing(&self) -> Work<'_> {
        let (mut srep, mut out) = ([0; SREP_LENGTH], vec![0; REQUEST_LENGTH]);
        work(move || {
            trawlbeacon::write_srep(black_box(&self.root), MIDP, RADI, &mut srep)
                .expect("there is room");
            black_box(&srep);
            for (place, path) in self.paths.iter().enumerate() {
                self.write(place, path, &mut out);
                black_box(&out);
            }
        })
    }

    fn writing_there(&self) -> Work<'_> {
        work(move || {
            black_box(respond::srep(black_box(&self.root), MIDP, RADI).expect("RADI is not 0"));
            for (place, path) in self.paths.iter().enumerate() {
                black_box(self.write_there(place, path));
            }
        })
    }

    pub fn whole(&self) -> Work<'_> {
        let (mut rows, mut siblings) = (vec![0; MOST_ROWS_LENGTH], [0; 320]);
        let (mut srep, mut out) = ([0; SREP_LENGTH], vec![0; REQUEST_LENGTH]);
        work(move || {
            let end = lay(&leaves(black_box(&self.requests)), &mut rows);
            let root = rows[end - 32..end].try_into().expect("the root is the last node");
            trawlbeacon::write_srep(root, MIDP, RADI, &mut srep).expect("there is room");
            black_box(&srep);
            for place in 0..self.batch() {
                let length = path(&rows, self.batch(), place, &mut siblings);
                self.write(place, &siblings[..length], &mut out);
                black_box(&out);
            }
        })
    }

    fn whole_there(&self) -> Work<'_> {
        work(move || {
            let tree = build(black_box(&self.requests));
            black_box(respond::srep(&tree.root(), MIDP, RADI).expect("RADI is not 0"));
            for place in 0..self.batch() {
                black_box(self.write_there(place, &placed(&tree, place).path.concat()));
            }
        })
    }

    /// What the whole is made of.
    fn parts(&self) -> [(&'static str, [Work<'_>; 2]); 3] {
        [
            ("leaves and tree", [self.tree(), self.tree_there()]),
            ("paths", [self.all_paths(), self.all_paths_there()]),
            ("SREP and writing", [self.writing(), self.writing_there()]),
        ]
    }
}

fn build(requests: &[Vec<u8>]) -> Tree {
    let leaves: Vec<u8> =
        requests.iter().flat_map(|request| independent::hash::leaf(request)).collect();
    Tree::build(&leaves).expect("there are leaves")
}

fn placed(tree: &Tree, place: usize) -> Placed {
    tree.place(place).expect("there is such a leaf")
}

/// Answers a second, by the size of the batch, and one batch by its parts.
pub fn part(run: &mut Run) {
    let title = "a server without its one signature; answers a second are ours";
    let head = ["Batch", "ours µs", "independent µs", "by independent", "answers a second"];
    let mut table = Table::new("servers", title, &head);
    for (name, works) in Round::new(BATCH).parts() {
        batch(run, &mut table, format!("{BATCH}: {name}"), BATCH, works);
    }
    let mut lines =
        ["ours", "independent"].map(|name| Line { chart: "batches", name, points: Vec::new() });
    for size in BATCHES {
        let round = Round::new(size);
        let works = [round.whole(), round.whole_there()];
        let times = batch(run, &mut table, count(size), size, works);
        for (line, time) in lines.iter_mut().zip(times) {
            line.points.push((size as f64, time));
        }
    }
    run.lines.extend(lines);
    run.put(table);
}

/// One line of it.
fn batch(
    run: &mut Run,
    table: &mut Table,
    name: String,
    size: usize,
    works: [Work; 2],
) -> [f64; 2] {
    let mut subject = Subject::of_two(format!("a server's batch of {name}"), size, works);
    if name == count(BATCH) {
        subject = subject.held(Side::Independent, "servers");
    }
    let measured = run.time(subject);
    let times = [measured.ours(), measured.time(Side::Independent).expect("it was timed")];
    let [ours, independent] = times.map(|time| number(time * 1e6, 1));
    let answers = number(size as f64 / measured.ours(), 0);
    table.row(vec![name, ours, independent, measured.ratio_text(Side::Independent), answers]);
    times
}
