//! The two checks of the windows of a full pile: one pass, and every pair.

use crate::run::Run;
use crate::sides::{work, Side, Subject};
use crate::table::{Columns, Table};
use independent::pile;
use std::hint::black_box;
use trawlbeacon::Tally;

/// The windows of a full pile. Only the first and the last contradict each other, so that neither
/// check ends before the last window.
fn told() -> Vec<(u64, u32)> {
    let between = |place: u64| (985 + place % 3, 50);
    let mut told: Vec<(u64, u32)> = (0..pile::MOST_RECORDS as u64).map(between).collect();
    (told[0], told[pile::MOST_RECORDS - 1]) = ((1000, 10), (970, 10));
    told
}

fn one_pass(told: &[(u64, u32)]) -> bool {
    let mut tally = Tally::new();
    told.iter().any(|(midp, radi)| tally.take(*midp, *radi))
}

fn every_pair(told: &[(u64, u32)]) -> bool {
    (0..told.len()).any(|place| {
        told[..place].iter().any(|earlier| trawlbeacon::contradicts(*earlier, told[place]))
    })
}

const COLUMNS: Columns = Columns {
    unit: "ns",
    sides: &[Side::Ours, Side::Pairs],
    digits: 1,
    show: |_, seconds| seconds * 1e9,
};

/// Windows that are known already.
pub fn part(run: &mut Run) {
    let (first, second) = (told(), told());
    assert!(one_pass(&first) && every_pair(&second));
    let works = vec![
        (Side::Ours, work(move || one_pass(black_box(&first)))),
        (Side::Pairs, work(move || every_pair(black_box(&second)))),
    ];
    let subject = Subject::new("16, one contradicts", 16, works).held(Side::Pairs, "one_pass");
    let title = "windows that are known already, of which only the last contradicts one";
    run.table(Table::new("windows", title, &["Windows"]), &COLUMNS, vec![subject]);
}
