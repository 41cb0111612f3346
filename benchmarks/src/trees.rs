//! The trees that are timed, by their numbers of leaves: all rows, the root, the path of one leaf,
//! and that path out of the rows, beside the hashing that such a tree needs.
//!
//! No buffer is cleared between runs.

use crate::hashes;
use crate::limits;
use crate::run::Run;
use crate::sides::{work, Side, Subject, Work};
use crate::table::{count, Columns, Table, MICROSECONDS};
use independent::tree::Tree;
use std::hint::black_box;
use trawlbeacon::{MOST_LEAVES, MOST_ROWS_LENGTH};

/// The numbers of leaves: the small ones, and those around the steps of the depth.
const COUNTS: [usize; 11] = [2, 3, 4, 8, 9, 64, 65, 512, 513, 900, 1024];

/// So many parents, one after the other, each of the same two nodes.
fn parents<'a>(data: &'a [u8], count: usize) -> Work<'a> {
    let node = |at: usize| data[at..at + 32].try_into().expect("32 bytes");
    let (left, right): (&[u8; 32], &[u8; 32]) = (node(0), node(32));
    work(move || {
        for _ in 0..count {
            black_box(trawlbeacon::parent(black_box(left), black_box(right)));
        }
    })
}

/// The parents of a tree of so many leaves: 2^d - 1.
fn hashing(data: &[u8], leaves: usize) -> Work<'_> {
    parents(data, leaves.next_power_of_two() - 1)
}

pub fn all_rows(leaves: &[u8]) -> Work<'_> {
    let mut out = vec![0; MOST_ROWS_LENGTH];
    work(move || {
        let laid = trawlbeacon::rows(black_box(leaves), &mut out);
        black_box(&out);
        laid
    })
}

fn rows(data: &[u8], leaves: usize) -> Subject<'_> {
    let bytes = &data[..32 * leaves];
    let independent = work(move || Tree::build(black_box(bytes)).map(|tree| tree.bytes()));
    let works = vec![
        (Side::Ours, all_rows(bytes)),
        (Side::Hashing, hashing(data, leaves)),
        (Side::Independent, independent),
    ];
    let name = format!("rows, {} leaves", count(leaves));
    Subject::new(name, leaves, works).held(Side::Hashing, limits::rows(leaves))
}

fn root(data: &[u8], leaves: usize) -> Subject<'_> {
    let bytes = &data[..32 * leaves];
    let works = vec![
        (Side::Ours, work(move || trawlbeacon::root(black_box(bytes)))),
        (Side::Hashing, hashing(data, leaves)),
    ];
    Subject::new(format!("root, {} leaves", count(leaves)), leaves, works)
}

/// The path of a leaf in the middle, built for it alone.
fn path(data: &[u8], leaves: usize) -> Subject<'_> {
    let bytes = &data[..32 * leaves];
    let mut out = [0; 320];
    let ours = work(move || {
        let placed = trawlbeacon::path(black_box(bytes), black_box(leaves / 2), &mut out);
        black_box(&out);
        placed
    });
    let works = vec![
        (Side::Ours, ours),
        (Side::Hashing, hashing(data, leaves)),
        (Side::Rows, all_rows(bytes)),
    ];
    let subject = Subject::new(format!("path, {} leaves", count(leaves)), leaves, works);
    match leaves {
        MOST_LEAVES => subject.held(Side::Rows, "path"),
        _ => subject,
    }
}

/// The same path out of the rows, beside a single hash.
fn path_from(data: &[u8], leaves: usize) -> Subject<'_> {
    let (mut rows, mut out) = (vec![0; MOST_ROWS_LENGTH], [0; 320]);
    trawlbeacon::rows(&data[..32 * leaves], &mut rows)
        .expect("there are leaves, and there is room");
    let ours = work(move || {
        let placed =
            trawlbeacon::path_from(black_box(&rows), leaves, black_box(leaves / 2), &mut out);
        black_box(&out);
        placed
    });
    let works = vec![(Side::Ours, ours), (Side::Hashing, parents(data, 1))];
    let name = format!("path_from, {} leaves", count(leaves));
    Subject::new(name, leaves, works).held(Side::Hashing, "path_from")
}

const COLUMNS: Columns =
    Columns { sides: &[Side::Ours, Side::Hashing, Side::Independent], digits: 3, ..MICROSECONDS };

const PATHS: Columns =
    Columns { sides: &[Side::Ours, Side::Hashing, Side::Rows], digits: 3, ..MICROSECONDS };

pub fn part(run: &mut Run) {
    let data = hashes::bytes(32 * MOST_LEAVES);
    let title = "all rows of a tree; the hashing is the parents that it needs";
    let subjects = COUNTS.iter().map(|leaves| rows(&data, *leaves)).collect();
    run.table(Table::new("trees", title, &["Tree"]), &COLUMNS, subjects);
    let ways = [2, 64, MOST_LEAVES]
        .map(|leaves| [root(&data, leaves), path(&data, leaves), path_from(&data, leaves)]);
    let title = "its root, the path of one leaf, and that path out of the rows (hashing: one)";
    let subjects = ways.into_iter().flatten().collect();
    run.table(Table::new("paths", title, &["Tree"]), &PATHS, subjects);
}
