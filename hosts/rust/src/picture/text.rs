//! The picture as plain text.

use super::axis::{Axis, Tick};
use super::dates::{Date, DAY};
use super::{words, Picture, Shown};
use crate::Window;

const COLUMNS: usize = 80;

/// How many columns a break of the axis takes.
const BREAK: usize = 2;

/// How many letters of a server's name stand beside its records, at the most, and how many columns
/// are kept for them at the least.
const MOST_OF_A_NAME: usize = 12;
const LEAST_OF_A_NAME: usize = 8;

/// Where things stand.
struct Layout {
    axis: Option<Axis>,
    /// The columns of a server's name.
    name: usize,
}

impl Layout {
    fn of(picture: &Picture) -> Layout {
        let label = |server| words::label(picture, server, MOST_OF_A_NAME).chars().count();
        let name = (0..picture.servers.len()).map(label).max().unwrap_or(0).max(LEAST_OF_A_NAME);
        let windows: Vec<_> = picture.windows().iter().map(|told| (told.low, told.high)).collect();
        let mut layout = Layout { axis: None, name };
        // A bar has its last column as well, so that the axis ends a column earlier.
        layout.axis = Axis::of(&windows, layout.columns() as u64 - 1, BREAK as u64);
        layout
    }

    /// Where the axis starts: behind the mark, the place and the letter of a record, and its name.
    const fn start(&self) -> usize {
        8 + self.name
    }

    /// How many columns the axis has.
    const fn columns(&self) -> usize {
        COLUMNS - self.start() - 1
    }
}

pub(super) fn draw(picture: &Picture) -> String {
    let layout = Layout::of(picture);
    let mut lines = vec![format!("{}; dates are UTC", words::heading(picture)), String::new()];
    for (place, shown) in picture.records.iter().enumerate() {
        record(&mut lines, picture, &layout, place, shown);
    }
    lines.extend(layout.axis.iter().flat_map(|axis| scale(axis, &layout)));
    lines.push(String::new());
    for server in 0..picture.servers.len() {
        let [key, behind] = words::server(picture, server);
        let line = format!("{} {key} {behind}", words::letter(server));
        match line.chars().count() <= COLUMNS {
            true => lines.push(line),
            false => lines.extend([format!("{} {key}", words::letter(server)), behind]),
        }
    }
    lines.push(String::new());
    for note in words::notes(picture, layout.axis.as_ref(), 1) {
        lines.extend(words::wrapped(&note, COLUMNS));
    }
    lines.iter().map(|line| format!("{}\n", line.trim_end())).collect()
}

/// A record takes a line with its bar, and a line or more with what it says.
fn record(
    lines: &mut Vec<String>,
    picture: &Picture,
    layout: &Layout,
    place: usize,
    shown: &Shown,
) {
    let label = words::label(picture, shown.server, MOST_OF_A_NAME);
    let letter = words::letter(shown.server);
    let mark = mark(picture, place);
    let bar = match (&layout.axis, &shown.told) {
        (Some(axis), Ok(window)) => bar(axis, layout, window),
        (Some(axis), Err(_)) => empty(axis, layout).into_iter().collect(),
        (None, _) => String::new(),
    };
    let width = layout.name;
    lines.push(format!("{mark}{place:>2} {letter} {label:<width$}  {bar}"));
    let (mut tie, width) = (words::link(place, shown), layout.start() - 4);
    for told in words::wrapped(&words::told(shown), COLUMNS - layout.start()) {
        lines.push(format!("    {tie:<width$}{told}"));
        tie = "";
    }
}

/// What stands before the records of the run: its two ends contradict each other.
fn mark(picture: &Picture, place: usize) -> char {
    match picture.run {
        Some(run) if place == run.first || place == run.last => '>',
        _ if picture.in_run(place) => '|',
        _ => ' ',
    }
}

/// The columns of the axis with nothing in them but its breaks.
fn empty(axis: &Axis, layout: &Layout) -> Vec<char> {
    let mut columns = vec![' '; layout.columns()];
    for two in axis.pieces.windows(2) {
        let middle = (two[0].end + two[1].start) / 2;
        columns[middle as usize] = ':';
    }
    columns
}

/// The columns of a window: at least one.
fn bar(axis: &Axis, layout: &Layout, window: &Window) -> String {
    let mut columns = empty(axis, layout);
    let (first, last) = (axis.place(window.low) as usize, axis.place(window.high) as usize);
    columns[first..=last].fill('=');
    columns.into_iter().collect()
}

/// The axis, and below it the dates of some seconds.
fn scale(axis: &Axis, layout: &Layout) -> Vec<String> {
    let mut rule = empty(axis, layout);
    for piece in &axis.pieces {
        rule[piece.start as usize..=piece.end as usize].fill('-');
    }
    let (mut times, mut days) = (String::new(), String::new());
    let last = axis.pieces.last().map_or(0, |piece| piece.last);
    let name = Date::of(last).day().len();
    for Tick { second, at, step } in axis.ticks(name as u64 + 2) {
        let (at, date) = (at as usize, Date::of(second));
        if at > 0 && at + name > layout.columns() {
            continue;
        }
        rule[at] = '|';
        days = format!("{days:<at$}{}", date.day());
        if step < DAY {
            times = format!("{times:<at$}{}", date.time());
        }
    }
    let lines = [rule.into_iter().collect(), times, days];
    let start = layout.start();
    let indented = |line: String| format!("{:start$}{line}", "");
    lines.into_iter().filter(|line| !line.is_empty()).map(indented).collect()
}
