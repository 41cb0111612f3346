//! Piles that are refused, or that no run can be cut from: a full pile with something wrong in it.

use crate::piles::{subject, Operation, Task, FULL};
use crate::run::Run;
use crate::sides::Side;
use crate::table::{microseconds, Table};
use independent::making::Made;
use independent::packet;
use independent::pile::RECORD;

/// Where things stand in a record.
const RAND: usize = 32;
const REQUEST: usize = 96;

/// The last byte of a full request. It is padding, which no rule looks at, but the leaf is another
/// one with it: 10, and all of the path is hashed before that is seen.
const PADDING: usize = REQUEST + packet::MOST - 1;

/// A way in which a pile is wrong, and the bytes of it that are changed.
pub struct Wrong {
    name: &'static str,
    places: Vec<usize>,
}

fn wrong(name: &'static str, places: impl IntoIterator<Item = usize>) -> Wrong {
    Wrong { name, places: places.into_iter().collect() }
}

/// Damages these records of a full pile, so that each is refused with 10.
pub fn damaged(pile: &[u8], records: impl Fn(usize) -> bool) -> Vec<u8> {
    let mut pile = pile.to_vec();
    for place in (0..pile.len() / RECORD).filter(|place| records(*place)) {
        pile[place * RECORD + PADDING] ^= 1;
    }
    pile
}

fn ways() -> Vec<Wrong> {
    let last = FULL.records - 1;
    let every = |byte: usize| (0..FULL.records).map(move |place| place * RECORD + byte);
    vec![
        wrong("the first request has a wrong mark (14)", [REQUEST]),
        wrong("every request has a wrong mark (14)", every(REQUEST)),
        wrong("the first path misses its root (10)", [PADDING]),
        wrong("the last path misses its root (10)", [last * RECORD + PADDING]),
        wrong("every path misses its root (10)", every(PADDING)),
        wrong("the second record is not linked (17)", [RECORD + RAND]),
        wrong("the last record is not linked (17)", [last * RECORD + RAND]),
    ]
}

/// Every operation on each of them.
pub fn part(run: &mut Run) {
    let title = "a full pile with something wrong; a ratio is ours by the independent checker's";
    let head =
        ["What is wrong", "verdicts µs", "ratio", "report µs", "ratio", "cutter µs", "ratio"];
    let mut table = Table::new("refused", title, &head);
    let full = FULL.made();
    for Wrong { name, places } in ways() {
        let mut made: Made = full.clone();
        places.iter().for_each(|place| made.pile[*place] ^= 1);
        let mut row = vec![name.to_string()];
        for operation in [Operation::Verdicts, Operation::Report, Operation::Cutter] {
            let task = Task { operation, cleared: false };
            let what = format!("{name}, {}", operation.name());
            let subject = subject(what, task, &made);
            let subject = subject.held_beside(Side::Independent, "refused", 1e-6);
            let measured = run.time(subject);
            row.extend([microseconds(measured.ours()), measured.ratio_text(Side::Independent)]);
        }
        table.row(row);
    }
    run.put(table);
}
