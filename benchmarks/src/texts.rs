//! Reports as JSON: read into records, written from them, and read, cut and written in one call, by
//! answers that are lent.
//!
//! No buffer is cleared between runs.

use crate::by_serde;
use crate::measured::Measured;
use crate::piles::{Shape, FULL};
use crate::run::Run;
use crate::sides::{work, Side, Subject, Work};
use crate::table::{count, microseconds, Table};
use independent::making::Made;
use independent::{lengthy, report_text};
use std::hint::black_box;
use trawlbeacon::{LONGEST_REPORT, MOST_PILE_LENGTH, MOST_RECORDS};

/// A full pile, which is a report, and its text.
pub struct Report {
    made: Made,
    pub text: Vec<u8>,
}

impl Report {
    /// Of so many records, all of them full.
    pub fn of(records: usize) -> Self {
        let made = Shape { records, ..FULL }.made();
        let mut text = vec![0; LONGEST_REPORT];
        let length = trawlbeacon::write_report(&made.pile, &made.answers, &mut text);
        text.truncate(length.expect("it is a report"));
        let theirs = report_text::write(&made.pile, &made.answers).expect("it is a report");
        assert_eq!(text, theirs.as_bytes(), "both write the same text");
        Report { made, text }
    }

    pub fn write(&self) -> [Work<'_>; 2] {
        let (mut out, mut there) = (vec![0; LONGEST_REPORT], vec![0; LONGEST_REPORT]);
        let Made { pile, answers } = &self.made;
        [
            work(move || trawlbeacon::write_report(black_box(pile), black_box(answers), &mut out)),
            work(move || {
                let text = report_text::write(black_box(pile), black_box(answers));
                let text = text.expect("it is a report");
                there[..text.len()].copy_from_slice(text.as_bytes());
            }),
        ]
    }

    pub fn cut(&self) -> [Work<'_>; 2] {
        let (mut out, mut there) = (vec![0; LONGEST_REPORT], vec![0; LONGEST_REPORT]);
        let (text, answers) = (&self.text[..], &self.made.answers[..]);
        [
            work(move || trawlbeacon::cut_text(black_box(text), black_box(answers), &mut out)),
            work(move || {
                let cut = report_text::cut(black_box(text), black_box(answers));
                let text = cut.expect("the whole convicts").1;
                there[..text.len()].copy_from_slice(text.as_bytes());
            }),
        ]
    }
}

/// Reading, by both sides, into a buffer that is long enough for any report.
pub fn read(text: &[u8]) -> [Work<'_>; 2] {
    let room = vec![0; MOST_PILE_LENGTH];
    let (mut out, mut there) = (room.clone(), room);
    [
        work(move || trawlbeacon::read_report(black_box(text), &mut out)),
        work(move || report_text::read_into(black_box(text), &mut there)),
    ]
}

/// What a reader says of a text, and what it leaves of a buffer.
pub fn said<R>(read: impl FnOnce(&mut [u8]) -> Result<usize, R>, code: fn(R) -> u32) -> Said {
    let mut out = vec![0xee; MOST_PILE_LENGTH];
    let told = read(&mut out).map_err(code);
    (told, out)
}

/// See [`said`].
pub type Said = (Result<usize, u32>, Vec<u8>);

/// Sees that all readers say the same of a text.
fn agree(text: &[u8]) {
    let ours = said(|out| trawlbeacon::read_report(text, out), |refusal| refusal.code());
    let theirs = said(|out| report_text::read_into(text, out), |refusal| refusal.code());
    assert!(ours == theirs, "the independent reader says another thing of a text");
    let serde = by_serde::said(text).unwrap_or_else(|| ours.clone());
    assert!(ours == serde, "serde_json's reader says another thing of a text");
}

/// Reports of 2 to 16 full records. Before one is timed both other readers must say the same of it.
pub fn part(run: &mut Run) {
    let title = "reports as JSON, full records; a ratio is ours by the independent one's";
    let head = ["Records", "bytes", "read µs", "ratio", "by serde_json"];
    let head = [&head[..], &["written µs", "ratio", "cut µs", "ratio"]].concat();
    let mut table = Table::new("json", title, &head);
    lengthy::texts(1 << 16).iter().for_each(|(_, text)| agree(text));
    for records in [2, 4, 8, MOST_RECORDS] {
        let report = Report::of(records);
        agree(&report.text);
        let subject = |what: &str, works, limit| {
            let name = format!("JSON of {records} records, {what}");
            Subject::of_two(name, report.text.len(), works).held(Side::Independent, limit)
        };
        let mut read = subject("read", read(&report.text), "texts_read");
        read.works.extend(by_serde::read(&report.text));
        let read = run.time(read.held(Side::SerdeJson, "texts_serde"));
        let written = run.time(subject("written", report.write(), "texts_written"));
        let cut = run.time(subject("cut", report.cut(), "texts_cut"));
        let cells = |of: &Measured| [microseconds(of.ours()), of.ratio_text(Side::Independent)];
        let mut row = vec![records.to_string(), count(report.text.len())];
        row.extend(cells(&read));
        row.push(read.ratio_text(Side::SerdeJson));
        row.extend([cells(&written), cells(&cut)].concat());
        table.row(row);
    }
    run.put(table);
}

/// Some texts that could take a reader long, by what they are made of: many of each kind of thing.
const KINDS: [&str; 7] = [
    "blanks",
    "one string",
    "a string of escapes",
    "members",
    "members of one entry",
    "good entries",
    "one packet",
];

/// A mebibyte of each.
pub fn long(run: &mut Run) {
    let columns = crate::table::Columns {
        unit: "MB/s",
        sides: &[Side::Ours, Side::Independent],
        digits: 1,
        show: |length, seconds| length as f64 / seconds / 1e6,
    };
    let texts = lengthy::texts(1 << 20);
    let shown = texts.iter().filter(|(name, _)| KINDS.contains(name));
    let subjects = shown.map(|(name, text)| Subject::of_two(*name, text.len(), read(text)));
    let title = "texts of a mebibyte, read as reports";
    run.table(Table::new("texts", title, &["A mebibyte of"]), &columns, subjects.collect());
}
