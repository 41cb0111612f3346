//! Full piles: 16 valid and linked records with packets of 2,000 bytes and paths of 32 siblings, by
//! the verdict on each record, the report check and the cutter. This is what was asked for: at most
//! twice the time of an independent checker with its own SHA-512.

use crate::run::{Line, Run};
use crate::sides::{work, Side, Subject, Work};
use crate::table::{count, microseconds, Columns, Table, MICROSECONDS};
use independent::making::{self, Link, Made};
use independent::{packet, pile, report};
use std::hint::black_box;

/// The shape of a pile, whose records are all alike.
#[derive(Clone, Copy)]
pub struct Shape {
    pub records: usize,
    pub siblings: usize,
    /// Bytes of each packet; a response that needs more has as many as it needs.
    pub packet: usize,
}

/// As much as a pile can hold.
pub const FULL: Shape = Shape { records: pile::MOST_RECORDS, siblings: 32, packet: packet::MOST };

impl Shape {
    /// The window of a record. Only the first and the last contradict each other, so that every
    /// other run is tried before the one that is found, and the whole pile is cut.
    fn window(self, place: usize) -> (u64, u32) {
        match place {
            0 => (1000, 10),
            _ if place + 1 == self.records => (970, 10),
            _ => (985, 50),
        }
    }

    /// What stands in each record.
    pub fn links(self) -> Vec<Link> {
        let link = |place: usize| {
            let (midp, radi) = self.window(place);
            let Shape { siblings, packet, .. } = self;
            Link {
                siblings,
                request_size: packet,
                response_size: packet,
                ..Link::new(place as u8, midp, radi)
            }
        };
        (0..self.records).map(link).collect()
    }

    pub fn made(self) -> Made {
        making::chain(&self.links())
    }
}

/// What is done with a pile.
#[derive(Clone, Copy, PartialEq)]
pub enum Operation {
    Verdicts,
    Report,
    Cutter,
    /// All three, one after the other, as a host would call them.
    Whole,
}

impl Operation {
    /// Each part, and then the whole.
    pub const ALL: [Operation; 4] =
        [Operation::Verdicts, Operation::Report, Operation::Cutter, Operation::Whole];

    pub fn name(self) -> &'static str {
        match self {
            Operation::Verdicts => "the verdict on each record",
            Operation::Report => "the report check",
            Operation::Cutter => "the cutter",
            Operation::Whole => "whole",
        }
    }

    pub fn has(self, part: Operation) -> bool {
        self == Operation::Whole || self == part
    }
}

/// An operation, and whether the buffer that the cutter is lent, the only one that a call may write
/// into, is set to zeros before each call. That is then timed, on every side.
#[derive(Clone, Copy)]
pub struct Task {
    pub operation: Operation,
    pub cleared: bool,
}

impl Task {
    fn prepare(self, out: &mut [u8]) {
        if self.cleared {
            black_box(out).fill(0);
        }
    }
}

/// A task by ours.
pub fn ours<'a>(task: Task, made: &'a Made) -> Work<'a> {
    let mut out = vec![0; made.pile.len()];
    let records = made.pile.len() / pile::RECORD;
    let operation = task.operation;
    work(move || {
        task.prepare(&mut out);
        let (pile, answers) = (black_box(&made.pile[..]), black_box(&made.answers[..]));
        if operation.has(Operation::Verdicts) {
            for place in 0..records {
                let _ = black_box(trawlbeacon::judge(pile, answers, place));
            }
        }
        let pair =
            operation.has(Operation::Report).then(|| trawlbeacon::check_report(pile, answers));
        let run =
            operation.has(Operation::Cutter).then(|| trawlbeacon::cut_run(pile, answers, &mut out));
        black_box(&out);
        (pair, run)
    })
}

/// The same by the independent checker, which benchmarks/peer has twice.
macro_rules! by_independent {
    ($name:ident, $checker:ident) => {
        fn $name<'a>(task: Task, made: &'a Made) -> Work<'a> {
            let mut out = vec![0; made.pile.len()];
            let operation = task.operation;
            work(move || {
                task.prepare(&mut out);
                let (pile, answers) = (black_box(&made.pile[..]), black_box(&made.answers[..]));
                if operation.has(Operation::Verdicts) {
                    let _ = black_box($checker::pile::judge_all(pile, answers));
                }
                let pair = operation
                    .has(Operation::Report)
                    .then(|| $checker::report::check(pile, answers));
                let run = operation
                    .has(Operation::Cutter)
                    .then(|| $checker::report::cut(pile, answers, &mut out));
                black_box(&out);
                (pair, run)
            })
        }
    };
}

by_independent!(independents, independent);
#[cfg(feature = "peer")]
by_independent!(over_sha2, independent_over_sha2);

/// Both sides must say the same of what is timed.
fn agree(Made { pile, answers }: &Made) {
    let ours = trawlbeacon::check_report(pile, answers);
    let ours = ours.map(|pair| (pair.first, pair.second)).map_err(|no| no.refusal.code());
    assert_eq!(ours, report::check(pile, answers).map_err(|no| no.refusal.code()));
    let mut out = vec![0; pile.len()];
    let ours = trawlbeacon::cut_run(pile, answers, &mut out);
    let ours = ours.map(|run| (run.first, run.last)).map_err(|refusal| refusal.code());
    assert_eq!(ours, report::run(pile, answers).map_err(|refusal| refusal.code()));
}

/// A task on a pile by all sides that there are.
pub fn subject<'a>(name: impl Into<String>, task: Task, made: &'a Made) -> Subject<'a> {
    agree(made);
    let works = vec![
        (Side::Ours, ours(task, made)),
        (Side::Independent, independents(task, made)),
        #[cfg(feature = "peer")]
        (Side::OverSha2, over_sha2(task, made)),
    ];
    Subject::new(name, made.pile.len(), works)
}

const COLUMNS: Columns =
    Columns { sides: &[Side::Ours, Side::Independent, Side::OverSha2], ..MICROSECONDS };

/// The full pile as it is, and the whole once more with the buffer cleared before each call.
pub fn part(run: &mut Run) {
    let made = FULL.made();
    let as_it_is =
        Operation::ALL.map(|operation| (operation.name(), Task { operation, cleared: false }));
    let cleared = Task { operation: Operation::Whole, cleared: true };
    let tasks = as_it_is.into_iter().chain([("whole, buffers cleared", cleared)]);
    let subjects = tasks.map(|(name, task)| {
        subject(name, task, &made)
            .held(Side::Independent, "piles")
            .held(Side::OverSha2, "piles_sha2")
    });
    let title = "16 records of 2,000 bytes a packet, 32 siblings; answers are lent";
    let table = Table::new("piles", title, &["A full pile"]);
    let measured = run.table(table, &COLUMNS, subjects.collect());
    let whole = &measured[Operation::ALL.len() - 1];
    let text = format!(
        "The whole of a full pile takes {} of the time of an independent checker with its own \
         SHA-512. At most 2 was asked, and 0.70 is the goal. It takes {} of the time of the same \
         checker over RustCrypto's SHA-512 in its portable form, where 1.0 is the goal.",
        whole.ratio_text(Side::Independent),
        whole.ratio_text(Side::OverSha2)
    );
    run.say("asked", &text);
}

/// The whole on a pile of this shape: our time and its ratio, and the times of both sides.
fn whole(run: &mut Run, shape: Shape) -> ([String; 2], [Option<f64>; 2]) {
    let task = Task { operation: Operation::Whole, cleared: false };
    let measured = run.time(subject("a smaller pile", task, &shape.made()));
    let shown = [microseconds(measured.ours()), measured.ratio_text(Side::Independent)];
    (shown, [Side::Ours, Side::Independent].map(|side| measured.time(side)))
}

/// How the time of the whole grows with the records, the siblings and the packets.
pub fn growth(run: &mut Run) {
    let mut lines = ["ours, answers lent", "independent, answers lent"].map(|name| Line {
        chart: "records",
        name,
        points: Vec::new(),
    });
    let title = "the whole on piles that are smaller in one way; packets without siblings";
    let head = ["Records", "µs", "ratio", "Siblings", "µs", "ratio", "Bytes", "µs", "ratio"];
    let mut table = Table::new("growth", title, &head);
    let rows = [(1, 0, 500), (2, 8, 752), (4, 16, 1000), (8, 24, 1500), (16, 32, 2000)];
    for (records, siblings, packet) in rows {
        let (of_records, times) = whole(run, Shape { records, ..FULL });
        for (line, time) in lines.iter_mut().zip(times) {
            line.points.extend(time.map(|time| (records as f64, time)));
        }
        let (of_siblings, _) = whole(run, Shape { siblings, ..FULL });
        let (of_bytes, _) = whole(run, Shape { packet, siblings: 0, ..FULL });
        let numbers = [records, siblings, packet].map(count);
        let groups = numbers.into_iter().zip([of_records, of_siblings, of_bytes]);
        table.row(groups.flat_map(|(number, [time, ratio])| [number, time, ratio]).collect());
    }
    run.lines.extend(lines);
    run.put(table);
}
