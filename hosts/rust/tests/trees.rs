//! Trees of every size, built by the proved library and by the independent implementation: roots,
//! paths, rows and every byte of the buffers must be the same, and so must the verdict on every
//! path, right or wrong.

mod support;

use independent::hash::Hash;
use support::answers::{Answer, Both, Written};
use support::tally::Tally;
use support::trees::{self, Walk};
use support::{counted, hex, Xorshift};
use trawlbeacon::{MOST_LEAVES, MOST_ROWS_LENGTH};

const WALKS: &str = "walks";
const ROOTS: &str = "roots";
const PATHS: &str = "paths";
const ROWS: &str = "rows";
const PATHS_FROM: &str = "paths from rows";

/// Numbers of leaves at which something ends or begins: a level, or what a class on a Saturday
/// brings. Where the short row ends (32) is among the small ones.
const CHOSEN: [usize; 12] = [1, 2, 3, 63, 64, 65, 511, 512, 513, 900, 1023, MOST_LEAVES];

/// Some numbers of leaves: all of the small ones, and the chosen ones.
fn some_counts() -> impl Iterator<Item = usize> {
    (1..=66).chain(CHOSEN.into_iter().filter(|count| *count > 66))
}

/// The least d with 2^d places for `count` leaves, found by trying.
fn depth(count: usize) -> usize {
    (0..).find(|d| 1 << d >= count).expect("some power is large enough")
}

/// Bytes of the rows of a tree of `count` leaves.
fn rows_length(count: usize) -> usize {
    32 * ((2 << depth(count)) - 1)
}

/// Random leaves, and what was compared of them.
struct Comparison {
    tally: Tally,
    random: Xorshift,
}

impl Comparison {
    fn walk(&mut self, walk: &Walk, leads: bool) {
        self.tally.answer(WALKS, &trees::leads(walk), Some(leads.code()), || walk.show());
    }

    fn root(&mut self, leaves: &[u8], due: u32) {
        self.tally
            .answer(ROOTS, &trees::root(leaves), Some(due), || format!("leaves {}", hex(leaves)));
    }

    /// Lends a buffer of `length` random bytes. Not by the other side's word alone: what must stay
    /// of it is what it was.
    fn write<T>(
        &mut self,
        column: &str,
        length: usize,
        due: (u32, usize),
        ask: impl FnOnce(&[u8]) -> Both<Written<T>>,
        input: impl Fn() -> String,
    ) -> Vec<u8>
    where
        Written<T>: Answer,
    {
        let (code, written) = due;
        let buffer = self.random.bytes(length);
        let both = ask(&buffer);
        self.tally.answer(column, &both, Some(code), &input);
        if both.ours.buffer[written..] != buffer[written..] {
            self.tally.differs(format!(
                "{column}: more than {written} bytes of {length} changed, for {}",
                input()
            ));
        }
        both.ours.buffer[..written].to_vec()
    }

    /// Asks for a path with a buffer of `length` bytes, and returns what was written.
    fn path(&mut self, leaves: &[u8], place: usize, length: usize, due: u32) -> Vec<u8> {
        let written = if due == 0 { 32 * depth(leaves.len() / 32) } else { 0 };
        let input = || format!("place {place}, {length} bytes, leaves {}", hex(leaves));
        self.write(
            PATHS,
            length,
            (due, written),
            |buffer| trees::path(leaves, place, buffer),
            input,
        )
    }

    fn rows(&mut self, leaves: &[u8], length: usize, due: u32) -> Vec<u8> {
        let written = if due == 0 { rows_length(leaves.len() / 32) } else { 0 };
        let input = || format!("{length} bytes, leaves {}", hex(leaves));
        self.write(ROWS, length, (due, written), |buffer| trees::rows(leaves, buffer), input)
    }

    fn path_from(
        &mut self,
        rows: &[u8],
        count: usize,
        place: usize,
        length: usize,
        due: u32,
    ) -> Vec<u8> {
        let written = if due == 0 { 32 * depth(count) } else { 0 };
        let input = || format!("place {place} of {count}, {length} bytes, rows {}", hex(rows));
        self.write(
            PATHS_FROM,
            length,
            (due, written),
            |buffer| trees::path_from(rows, count, place, buffer),
            input,
        )
    }

    fn unseen(&mut self, bytes: &[u8], count: usize, place: usize) {
        if let Some(wrong) = trees::unseen_fields(bytes, count, place) {
            self.tally
                .differs(format!("{wrong}\n  for place {place} of {count} in {}", hex(bytes)));
        }
    }

    /// A walk of `steps` siblings that leads to its root.
    fn right_walk(&mut self, steps: usize) -> Walk {
        let path: Vec<Hash> = (0..steps).map(|_| self.random.array()).collect();
        // Every number of 32 bits stands at 32 steps, and at 33 there are no more of them.
        let indx = (self.random.next() % (1 << steps.min(32))) as u32;
        Walk::right(self.random.array(), indx, &path)
    }
}

/// Trees of every number of leaves, and those just above that are refused: the root, all rows, and
/// the paths of the first leaf, the last and another.
fn every_count(seen: &mut Comparison) {
    for count in 0..=MOST_LEAVES + 6 {
        let due = if (1..=MOST_LEAVES).contains(&count) { 0 } else { 20 };
        let leaves = seen.random.bytes(32 * count);
        seen.root(&leaves, due);
        let rows = seen.rows(&leaves, MOST_ROWS_LENGTH + count % 7, due);
        let other = seen.random.below(count.max(1));
        for place in [0, count.saturating_sub(1), other] {
            let path = seen.path(&leaves, place, 320 + place % 3, due);
            if due > 0 {
                continue;
            }
            assert_eq!(path, seen.path_from(&rows, count, place, 320, due));
            let root = rows[rows.len() - 32..].try_into().expect("the root has 32 bytes");
            let leaf = leaves[32 * place..][..32].try_into().expect("a leaf has 32 bytes");
            seen.walk(&Walk { leaf, indx: place as u32, path, root }, true);
        }
    }
}

/// Every leaf of some trees. What is written must also lead to the root, by both checks.
fn every_leaf(seen: &mut Comparison) {
    for count in some_counts() {
        let leaves = seen.random.bytes(32 * count);
        seen.root(&leaves, 0);
        let root = trawlbeacon::root(&leaves).expect("it was compared").root;
        let rows = seen.rows(&leaves, rows_length(count) + count % 3, 0);
        assert_eq!(rows[rows.len() - 32..], root, "{count} leaves: the root is the last node");
        assert_eq!(rows[..leaves.len()], leaves, "{count} leaves: they are the first nodes");
        for place in 0..count {
            let path = seen.path(&leaves, place, 32 * depth(count) + place % 3, 0);
            let same = seen.path_from(&rows, count, place, path.len() + place % 5, 0);
            assert_eq!(path, same, "place {place} of {count}: the path, and the path from rows");
            let leaf = leaves[32 * place..32 * place + 32].try_into().expect("a leaf has 32 bytes");
            let walk = Walk { leaf, indx: place as u32, path, root };
            seen.walk(&walk, true);
            wrong_walks(seen, &walk);
            // It builds several trees, so that not every leaf of the large ones has its turn.
            if count <= 66 || place % 64 == 0 {
                seen.unseen(&leaves, count, place);
            }
        }
    }
}

/// Walks of every number of siblings, also those that no tree of ours is deep enough for.
fn long_walks(seen: &mut Comparison) {
    for steps in 0..=32 {
        for _ in 0..12 {
            let walk = seen.right_walk(steps);
            seen.walk(&walk, true);
            wrong_walks(seen, &walk);
        }
    }
    for steps in 33..=40 {
        for _ in 0..20 {
            // It would lead to its root, but is longer than PATH may be.
            let walk = seen.right_walk(steps);
            seen.walk(&walk, false);
        }
    }
}

/// A right walk with one thing wrong in turn: nothing of it leads to the root any more.
fn wrong_walks(seen: &mut Comparison, walk: &Walk) {
    let Walk { leaf, indx, path, root } = walk.clone();
    let steps = path.len() / 32;
    for bit in 0..32 {
        seen.walk(&Walk { indx: indx ^ 1 << bit, ..walk.clone() }, false);
    }
    let turned = (!u64::from(indx) & ((1 << steps) - 1)) as u32;
    if steps > 0 {
        // The other order of both hashes at every step.
        seen.walk(&Walk { indx: turned, ..walk.clone() }, false);
    }
    let flipped = |bytes: &[u8], bit: usize| {
        let mut bytes = bytes.to_vec();
        bytes[bit / 8] ^= 1 << (bit % 8);
        bytes
    };
    for step in 0..steps {
        let bit = 256 * step + seen.random.below(256);
        seen.walk(&Walk { path: flipped(&path, bit), ..walk.clone() }, false);
    }
    let bit = seen.random.below(256);
    let other = |hash: &Hash| Hash::try_from(flipped(hash, bit)).expect("it has 32 bytes");
    seen.walk(&Walk { leaf: other(&leaf), ..walk.clone() }, false);
    seen.walk(&Walk { root: other(&root), ..walk.clone() }, false);
    wrong_lengths(seen, walk);
}

/// A right walk with bytes missing or too many.
fn wrong_lengths(seen: &mut Comparison, walk: &Walk) {
    let (path, more) = (&walk.path, seen.random.bytes(32));
    for extra in [1, 4, 16, 31, 32] {
        // The number stays, and then also loses or gains the bit of the step that came or went.
        let longer = [&path[..], &more[..extra]].concat();
        seen.walk(&Walk { path: longer, ..walk.clone() }, false);
        let longer = [&more[..extra], &path[..]].concat();
        let indx = walk.indx << 1;
        seen.walk(&Walk { path: longer.clone(), ..walk.clone() }, false);
        seen.walk(&Walk { path: longer, indx, ..walk.clone() }, false);
        if extra <= path.len() {
            seen.walk(&Walk { path: path[..path.len() - extra].to_vec(), ..walk.clone() }, false);
            seen.walk(&Walk { path: path[extra..].to_vec(), ..walk.clone() }, false);
            seen.walk(
                &Walk { path: path[extra..].to_vec(), indx: walk.indx >> 1, ..walk.clone() },
                false,
            );
        }
    }
}

/// Leaves that are none, too many, or not whole. A buffer that is too short as well changes
/// nothing.
fn wrong_leaves(seen: &mut Comparison) {
    let counts = [0, 1025, 1026, 1500, 2047, 2048, 2049, 4096, 16_384].map(|count| 32 * count);
    let ragged =
        (0..=65).chain(1020..=1025).flat_map(|count| [1, 4, 16, 31].map(|more| 32 * count + more));
    for length in counts.into_iter().chain(ragged) {
        let leaves = seen.random.bytes(length);
        seen.root(&leaves, 20);
        for room in [0, 31, MOST_ROWS_LENGTH, 131_072] {
            seen.rows(&leaves, room, 20);
            seen.path(&leaves, 0, room, 20);
        }
        seen.unseen(&leaves, length / 32, 0);
    }
}

/// Places that have no leaf: the first of them may be an empty place of the tree, and others be
/// small again in 32 bits.
fn past(count: usize) -> [usize; 9] {
    let (width, high) = (1 << depth(count), 1 << 32);
    [count, count + 1, width, 2 * width, MOST_LEAVES, 1025, high, usize::MAX, usize::MAX - 31]
}

fn wrong_places(seen: &mut Comparison) {
    for count in some_counts() {
        let leaves = seen.random.bytes(32 * count);
        let rows = seen.rows(&leaves, MOST_ROWS_LENGTH, 0);
        for place in past(count).into_iter().filter(|place| *place >= count) {
            for room in [0, 32 * depth(count), 4096] {
                seen.path(&leaves, place, room, 20);
                seen.path_from(&rows, count, place, room, 20);
            }
            seen.unseen(&leaves, count, place);
            seen.unseen(&rows, count, place);
        }
    }
}

/// Buffers around the length that is needed.
fn buffers(seen: &mut Comparison) {
    for count in some_counts() {
        let leaves = seen.random.bytes(32 * count);
        let needed = rows_length(count);
        for room in [0, 1, 32, needed - 32, needed - 1] {
            seen.rows(&leaves, room.min(needed - 1), 19);
        }
        let rows = seen.rows(&leaves, needed + 100, 0);
        let (needed, place) = (32 * depth(count), seen.random.below(count));
        for room in (0..=needed + 33).filter(|room| room % 32 < 2 || room % 32 == 31) {
            let due = if room < needed { 19 } else { 0 };
            seen.path(&leaves, place, room, due);
            seen.path_from(&rows, count, place, room, due);
        }
        seen.unseen(&leaves, count, place);
        seen.unseen(&rows, count, place);
    }
}

/// Rows that are too short, too long, of another tree, or no rows at all. What is no tree is still
/// read as it stands.
fn other_rows(seen: &mut Comparison) {
    for count in some_counts() {
        let leaves = seen.random.bytes(32 * count);
        let rows = seen.rows(&leaves, rows_length(count), 0);
        let (room, place) = (32 * depth(count), seen.random.below(count));
        for cut in [1, 31, 32, 33, rows.len()].map(|cut| cut.min(rows.len())) {
            seen.path_from(&rows[..rows.len() - cut], count, place, room, 20);
            seen.path_from(&rows[cut..], count, place, 0, 20);
        }
        let more = seen.random.bytes(100);
        let longer = [&rows[..], &more[..1 + place % 100]].concat();
        let path = seen.path_from(&longer, count, place, room, 0);
        assert_eq!(
            path,
            seen.path(&leaves, place, room, 0),
            "place {place} of {count}: rows with bytes behind them"
        );
        let any = seen.random.bytes(MOST_ROWS_LENGTH);
        seen.path_from(&any, count, place, room, 0);
        for wrong in [0, 1025, 2048, 1 << 32 | count, usize::MAX, usize::MAX - 1023] {
            seen.path_from(&any, wrong, place, 4096, 20);
            seen.unseen(&any, wrong, place);
        }
        damaged_rows(seen, count, &rows);
    }
}

/// Each node of some rows changed in turn, and the paths of all leaves that could meet it.
fn damaged_rows(seen: &mut Comparison, count: usize, rows: &[u8]) {
    for node in 0..rows.len() / 32 {
        let mut damaged = rows.to_vec();
        let bit = seen.random.below(256);
        damaged[32 * node + bit / 8] ^= 1 << (bit % 8);
        let place = seen.random.below(count);
        for place in [place, node.min(count - 1), (node ^ 1).min(count - 1)] {
            seen.path_from(&damaged, count, place, 32 * depth(count), 0);
        }
    }
}

/// The rows of one count asked for the paths of another, of the same depth or not.
fn other_counts(seen: &mut Comparison) {
    for count in some_counts() {
        let leaves = seen.random.bytes(32 * count);
        let rows = seen.rows(&leaves, rows_length(count), 0);
        for other in some_counts() {
            let place = seen.random.below(other);
            let due = if rows_length(other) <= rows.len() { 0 } else { 20 };
            seen.path_from(&rows, other, place, 32 * depth(other), due);
        }
    }
}

/// Leaves and buffers may start anywhere.
fn unaligned(seen: &mut Comparison) {
    for start in 1..16 {
        let count = 60 * start + 1;
        let bytes = seen.random.bytes(start + 32 * count);
        let (leaves, place) = (&bytes[start..], count - start);
        seen.root(leaves, 0);
        let rows = seen.rows(leaves, MOST_ROWS_LENGTH, 0);
        let shifted = [&bytes[..start], &rows[..]].concat();
        seen.path_from(&shifted[start..], count, place, 400, 0);
        let due = seen.path(leaves, place, 400, 0);
        let mut out = vec![0xee; start + 400];
        trawlbeacon::path(leaves, place, &mut out[start..]).expect("there is room");
        let (front, end) = (start, start + due.len());
        assert_eq!(out[front..end], due);
        assert!(out[..front].iter().chain(&out[end..]).all(|byte| *byte == 0xee), "start {start}");
    }
}

type Group = (&'static str, fn(&mut Comparison));

#[test]
fn both_sides_build_and_check_alike() {
    let tally = Tally::new(&[WALKS, ROOTS, PATHS, ROWS, PATHS_FROM]);
    let mut seen = Comparison { tally, random: Xorshift::new(0x5eed_0301) };
    let groups: [Group; 9] = [
        ("trees of 0 to 1,030 leaves", every_count),
        ("every leaf of some trees, and each path with one thing wrong", every_leaf),
        ("paths of 0 to 40 siblings, and each with one thing wrong", long_walks),
        ("leaves that are none, too many or not whole", wrong_leaves),
        ("places past the last", wrong_places),
        ("buffers of every length around the right one", buffers),
        ("rows that are short, long, damaged or no rows", other_rows),
        ("rows of another number of leaves", other_counts),
        ("unaligned starts", unaligned),
    ];
    for (name, group) in groups {
        let before = seen.tally.answers();
        group(&mut seen);
        println!("{:>8} answers: {name}", seen.tally.answers() - before);
    }
    println!(
        "trees, ours compared with independent; how often each code was given, and 10 where a path \
         leads elsewhere:"
    );
    println!("{}", seen.tally.table("code"));
    seen.tally.no_difference();
    // Each leaf of the chosen trees, and three of every other one.
    let leaves = CHOSEN.iter().sum::<usize>() + 3 * MOST_LEAVES;
    seen.tally.at_least(leaves, WALKS, [0, 10]);
    seen.tally.at_least(MOST_LEAVES, ROOTS, [0]);
    seen.tally.at_least(64, ROOTS, [20]);
    seen.tally.at_least(leaves, PATHS, [0]);
    seen.tally.at_least(leaves, PATHS_FROM, [0]);
    seen.tally.at_least(100, ROWS, [0, 19, 20]);
    seen.tally.at_least(100, PATHS, [19, 20]);
    seen.tally.at_least(100, PATHS_FROM, [19, 20]);
    counted(seen.tally.answers(), "roots, rows and paths of trees");
}
