//! The picture as SVG.

use super::axis::{Axis, Tick};
use super::canvas::{Anchor, Canvas, Length, PX};
use super::dates::{brief, Date, DAY};
use super::{style, words, Picture, Shown};
use crate::{Run, Window};

const WIDTH: Length = 960 * PX;
const MARGIN: Length = 18 * PX;

/// Where the rows of records start, and how high each is.
const ROWS: Length = 66 * PX;
const ROW: Length = 48 * PX;

/// Where the circles stand that are chained, and what stands beside them.
const CHAIN: Length = 32 * PX;
const BESIDE: Length = 52 * PX;

/// Where the axis starts, how long it is, and how much of that a break of it takes.
const AXIS: Length = 160 * PX;
const AXIS_WIDTH: Length = 700 * PX;
const BREAK: Length = 44 * PX;

/// How far the axis is below the rows, and how much it takes there with its names.
const OFF_ROWS: Length = 12 * PX;
const SCALE: Length = 58 * PX;

/// How far a bar is below the start of its row, and how high it is.
const BAR_DOWN: Length = 6 * PX;
const BAR: Length = 14 * PX;
const LEAST_BAR: Length = 3 * PX;

/// How far the words about a window are below the start of its row.
const TOLD: Length = 36 * PX;

/// A line of text below the scale.
const LINE: Length = 19 * PX;

/// How many letters of a server's name have room beside its records, and where the servers are
/// listed.
const MOST_OF_A_NAME: usize = 13;
const MOST_OF_A_SERVER: usize = 120;

/// How wide a letter of the words about a window and of the names below the axis is, at most.
const LETTER: Length = 67 * PX / 10;

pub(super) fn draw(picture: &Picture) -> String {
    let windows: Vec<_> = picture.windows().iter().map(|told| (told.low, told.high)).collect();
    let axis = Axis::of(&windows, AXIS_WIDTH, BREAK);
    let notes = words::notes(picture, axis.as_ref(), LEAST_BAR);
    let lines = (picture.servers.len() + notes.len()) as u64;
    let legend_at = below(picture) + axis.as_ref().map_or(0, |_| SCALE);
    let height = legend_at + LINE * lines + LINE / 2 + MARGIN;
    let heading = words::heading(picture);
    let finding = words::finding(picture);
    let sheet = style::sheet(picture.servers.len());
    let mut canvas = Canvas::new(WIDTH, height, &format!("{heading}. {finding}"), &sheet);
    canvas.rect("paper", (0, 0), (WIDTH, height));
    canvas.text("ink heading", (MARGIN, 30 * PX), Anchor::Start, &heading);
    let below_heading = format!("{finding} Dates and times are UTC.");
    canvas.text("faint", (MARGIN, 48 * PX), Anchor::Start, &below_heading);
    band(&mut canvas, picture);
    if let Some(axis) = &axis {
        breaks(&mut canvas, axis, below(picture) + OFF_ROWS);
        scale(&mut canvas, axis, below(picture) + OFF_ROWS);
        bars(&mut canvas, picture, axis);
        contradiction(&mut canvas, picture, axis);
    }
    // Words come last, so that nothing is drawn across them.
    for (place, shown) in picture.records.iter().enumerate() {
        record(&mut canvas, picture, axis.as_ref(), place, shown);
    }
    legend(&mut canvas, picture, &notes, legend_at);
    canvas.finish()
}

/// Where a row starts.
fn row(place: usize) -> Length {
    ROWS + ROW * place as u64
}

/// Where the rows end.
fn below(picture: &Picture) -> Length {
    row(picture.records.len())
}

/// Where a window starts and ends.
fn ends(axis: &Axis, window: &Window) -> (Length, Length) {
    (AXIS + axis.place(window.low), AXIS + axis.place(window.high))
}

/// What lies behind the records of the run.
fn band(canvas: &mut Canvas, picture: &Picture) {
    let Some(run) = picture.run else { return };
    let side = 8 * PX;
    let height = row(run.last + 1) - row(run.first);
    canvas.rect("band", (side, row(run.first)), (WIDTH - 2 * side, height));
    canvas.text("red", (WIDTH - MARGIN, row(run.first) + 17 * PX), Anchor::End, &run_label(run));
}

/// What the band is called, at its right end.
fn run_label(run: Run) -> String {
    format!("run {} to {}", run.first, run.last)
}

/// The breaks of the axis, which is at this height, each with what is left out there.
fn breaks(canvas: &mut Canvas, axis: &Axis, y: Length) {
    for two in axis.pieces.windows(2) {
        let (start, end) = (AXIS + two[0].end, AXIS + two[1].start);
        canvas.rect("gap", (start, ROWS), (end - start, y - ROWS));
        let length = brief(two[1].first - two[0].last);
        canvas.text("faint small", ((start + end) / 2, y + 3 * PX), Anchor::Middle, &length);
    }
}

/// The axis, with the names of its seconds.
fn scale(canvas: &mut Canvas, axis: &Axis, y: Length) {
    for piece in &axis.pieces {
        canvas.line("scale", (AXIS + piece.start, y), (AXIS + piece.end, y));
    }
    let last = axis.pieces.last().map_or(0, |piece| piece.last);
    let name = LETTER * (Date::of(last).day().len() as u64 + 2);
    let mut before = String::new();
    for Tick { second, at, step } in axis.ticks(name) {
        let (x, date) = (AXIS + at, Date::of(second));
        canvas.line("grid", (x, ROWS), (x, y));
        canvas.line("scale", (x, y), (x, y + 5 * PX));
        let (line, next) = (y + 18 * PX, y + 32 * PX);
        if step < DAY {
            canvas.text("faint mono", (x, line), Anchor::Middle, &date.time());
        }
        // A day is named where it begins to be another one.
        let day = date.day();
        if day != before {
            let line = if step < DAY { next } else { line };
            canvas.text("faint mono", (x, line), Anchor::Middle, &day);
        }
        before = day;
    }
}

/// The bars of the windows, none too short to be seen.
fn bars(canvas: &mut Canvas, picture: &Picture, axis: &Axis) {
    for (place, shown) in picture.records.iter().enumerate() {
        let Ok(window) = &shown.told else { continue };
        let (start, end) = ends(axis, window);
        let width = (end - start).max(LEAST_BAR);
        let start = start.min(AXIS + AXIS_WIDTH - width);
        canvas.group(&title(&picture.servers[shown.server], place, shown));
        canvas.rect(&server(shown), (start, row(place) + BAR_DOWN), (width, BAR));
        canvas.end_group();
    }
}

/// The class of what has its server's colour.
fn server(shown: &Shown) -> String {
    format!("s{}", shown.server)
}

/// The row of a record, but for its bar.
fn record(
    canvas: &mut Canvas,
    picture: &Picture,
    axis: Option<&Axis>,
    place: usize,
    shown: &Shown,
) {
    let (y, key) = (row(place), &picture.servers[shown.server]);
    canvas.group(&title(key, place, shown));
    chain(canvas, place, shown);
    let label = words::label(picture, shown.server, MOST_OF_A_NAME);
    let server = format!("{} {label}", words::letter(shown.server));
    canvas.text("ink mono", (BESIDE, y + 17 * PX), Anchor::Start, &server);
    let tied = if place == 0 || shown.linked { "faint small" } else { "red small" };
    canvas.text(tied, (BESIDE, y + 32 * PX), Anchor::Start, words::link(place, shown));
    let told = words::told(shown);
    let (ink, x, down) = match (axis, &shown.told) {
        (Some(axis), Ok(window)) => ("faint", beneath(picture, axis, window, place, &told), TOLD),
        _ => ("red", AXIS, 17 * PX),
    };
    let behind = if picture.in_run(place) { "banded" } else { "told" };
    canvas.text(&format!("{ink} mono {behind}"), (x, y + down), Anchor::Start, &told);
    canvas.end_group();
}

/// How high the words about a record's window stand, where they stand at this place of the axis.
fn words_at(picture: &Picture, axis: &Axis, place: usize, x: Length) -> Option<(Length, Length)> {
    let shown = &picture.records[place];
    let (window, told) = (shown.told.as_ref().ok()?, words::told(shown));
    let start = beneath(picture, axis, window, place, &told);
    let end = start + LETTER * told.chars().count() as u64;
    let (above, below) = (row(place) + TOLD - 12 * PX, row(place) + TOLD + 5 * PX);
    (start <= x + 3 * PX && x <= end + 3 * PX).then_some((above, below))
}

/// Where the words about a window start: below its bar, beside the line of what it contradicts, and
/// further left where they would reach beyond the margin.
fn beneath(picture: &Picture, axis: &Axis, window: &Window, place: usize, told: &str) -> Length {
    let aside = if picture.run.map(|run| run.first) == Some(place) { 6 * PX } else { 0 };
    let start = ends(axis, window).0 + aside;
    start.min(WIDTH - MARGIN - LETTER * told.chars().count() as u64)
}

/// What a browser shows of a record under the mouse.
fn title(key: &[u8; 32], place: usize, shown: &Shown) -> String {
    let key = words::hex(key);
    match shown.told {
        Ok(Window { midp, radi, mint, maxt, .. }) => {
            format!("record {place}, key {key}: MIDP {midp}, RADI {radi}, MINT {mint}, MAXT {maxt}")
        }
        Err(why) => format!("record {place}, key {key}: refused with code {}", why.code()),
    }
}

/// The circle of a record, with its place, and what ties it to the one above it.
fn chain(canvas: &mut Canvas, place: usize, shown: &Shown) {
    let (y, radius) = (row(place) + 14 * PX, 11 * PX);
    if place > 0 {
        let tie = if shown.linked { "link" } else { "unlinked" };
        canvas.line(tie, (CHAIN, y + radius - ROW), (CHAIN, y - radius));
    }
    let (circle, number) = match shown.told {
        Ok(_) => (server(shown), "number"),
        Err(_) => ("hollow".to_string(), "ink small"),
    };
    canvas.circle(&circle, (CHAIN, y), radius);
    canvas.text(number, (CHAIN, y + 4 * PX), Anchor::Middle, &place.to_string());
}

/// From the earliest second that the earlier record of the pair allows, down to the later one, but
/// not across words; and there from the latest second that this one allows.
fn contradiction(canvas: &mut Canvas, picture: &Picture, axis: &Axis) {
    let (Some(run), Some((earlier, later))) = (picture.run, picture.pair()) else { return };
    let bottom = row(run.last) + BAR_DOWN + BAR + 3 * PX;
    let (least, most) = (AXIS + axis.place(earlier.low), AXIS + axis.place(later.high));
    let label = WIDTH - MARGIN - 8 * PX * run_label(run).len() as u64;
    let mut from = row(run.first) + if least < label { 3 * PX } else { 21 * PX };
    for place in run.first..run.last {
        if let Some((above, below)) = words_at(picture, axis, place, least) {
            canvas.line("guide", (least, from), (least, above));
            from = below;
        }
    }
    canvas.line("guide", (least, from), (least, bottom));
    canvas.line("guide", (most, row(run.last) + 3 * PX), (most, bottom));
    let middle = row(run.last) + BAR_DOWN + BAR / 2;
    canvas.line("apart", (most, middle), (least, middle));
    // The later record has nothing on this side, so that the words have room.
    let apart = format!("{} apart", brief(earlier.low - later.high));
    canvas.text("red small", (least + 6 * PX, middle + 4 * PX), Anchor::Start, &apart);
}

/// The servers with their whole keys, and what is said of the records.
fn legend(canvas: &mut Canvas, picture: &Picture, notes: &[String], mut y: Length) {
    for server in 0..picture.servers.len() {
        y += LINE;
        canvas.rect(&format!("s{server}"), (MARGIN, y - 10 * PX), (12 * PX, 12 * PX));
        let [key, behind] = words::server(picture, server);
        let name = format!("{} {key} {behind}", words::letter(server));
        let name: String = name.chars().take(MOST_OF_A_SERVER).collect();
        canvas.text("ink mono", (MARGIN + 20 * PX, y), Anchor::Start, &name);
    }
    y += LINE / 2;
    for note in notes {
        y += LINE;
        canvas.text("ink", (MARGIN, y), Anchor::Start, note);
    }
}
