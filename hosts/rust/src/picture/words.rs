//! What both pictures say in words.

use super::axis::Axis;
use super::dates::{span, Date};
use super::{Judged, Picture, Shown};
use crate::Window;

/// What the picture is of.
pub(super) fn heading(picture: &Picture) -> String {
    let records = counted(picture.records.len(), "record");
    match picture.judged {
        Judged::Signatures => format!("{records}, judged by their own signatures"),
        Judged::Answers => format!("{records}, judged by the answers about their signatures"),
    }
}

fn counted(count: usize, what: &str) -> String {
    format!("{count} {what}{}", if count == 1 { "" } else { "s" })
}

/// The letter by which a picture calls a server. There are at most 16.
pub(super) fn letter(server: usize) -> char {
    char::from(b'A' + server as u8)
}

/// The first eight digits of a key. Anybody can make a key that starts like another, so that the
/// whole keys stand below.
pub(super) fn short(key: &[u8; 32]) -> String {
    hex(&key[..4])
}

/// What a server is called, where it has a name.
fn name(picture: &Picture, server: usize) -> Option<&str> {
    picture.names.as_ref()?[server].as_deref()
}

/// What stands beside a record, in at most so many letters: the name of its server, or the first
/// digits of its key.
pub(super) fn label(picture: &Picture, server: usize, most: usize) -> String {
    let short = short(&picture.servers[server]);
    name(picture, server).map_or(short, |name| name.chars().take(most).collect())
}

/// A server with its whole key, and its name; or where nobody has looked for one, of how many
/// records it is the key.
pub(super) fn server(picture: &Picture, server: usize) -> [String; 2] {
    let records = picture.records.iter().filter(|shown| shown.server == server).count();
    let behind = match (&picture.names, name(picture, server)) {
        (None, _) => format!("({})", counted(records, "record")),
        (_, Some(name)) => name.to_string(),
        (_, None) => "in no list".to_string(),
    };
    [hex(&picture.servers[server]), behind]
}

pub(super) fn hex(bytes: &[u8]) -> String {
    bytes.iter().map(|byte| format!("{byte:02x}")).collect()
}

/// What a record tells, or why it is refused.
pub(super) fn told(shown: &Shown) -> String {
    match shown.told {
        Ok(Window { low, high, .. }) => format!("{} ({low} to {high})", dates(low, high)),
        Err(why) => format!("refused with code {}: {why}", why.code()),
    }
}

/// Two dates, the day but once where it is the same.
fn dates(from: u64, to: u64) -> String {
    let (from, to) = (Date::of(from), Date::of(to));
    if from.day() == to.day() {
        format!("{from} to {}", to.time())
    } else {
        format!("{from} to {to}")
    }
}

/// Whether a record is linked to the one before it.
pub(super) fn link(place: usize, shown: &Shown) -> &'static str {
    match (place, shown.linked) {
        (0, _) => "first",
        (_, true) => "linked",
        (_, false) => "not linked",
    }
}

/// What follows from the records, in a sentence.
pub(super) fn finding(picture: &Picture) -> String {
    match picture.run {
        Some(run) => format!("Records {} and {} contradict each other.", run.first, run.last),
        None => "No run of records convicts: nothing here proves a lie.".to_string(),
    }
}

/// The same at length.
fn verdict(picture: &Picture) -> Vec<String> {
    let (Some(run), Some((earlier, later))) = (picture.run, picture.pair()) else {
        return vec![finding(picture)];
    };
    let whose = |place: usize| match name(picture, picture.records[place].server) {
        Some(name) => format!("{place} ({name})"),
        None => place.to_string(),
    };
    vec![
        format!("Records {} to {} alone prove a lie:", run.first, run.last),
        format!("Record {} says that it was {} or later.", whose(run.first), Date::of(earlier.low)),
        format!(
            "Record {}, asked for after that, says that it was {} or earlier.",
            whose(run.last),
            Date::of(later.high)
        ),
        format!("The two are {} apart, and contradict each other.", long(earlier.low - later.high)),
    ]
}

/// Which keys are in no list, where somebody has looked.
fn unlisted(picture: &Picture) -> Option<String> {
    let names = picture.names.as_ref()?;
    let letters = (0..names.len()).filter(|server| names[*server].is_none()).map(letter);
    let letters: Vec<String> = letters.map(String::from).collect();
    (!letters.is_empty()).then(|| {
        format!("In no list, so that anybody may have made it: the key {}.", letters.join(", "))
    })
}

/// A number of seconds, and how long that is where it is not seen at a glance.
fn long(seconds: u64) -> String {
    if seconds < 60 {
        span(seconds)
    } else {
        format!("{seconds} seconds ({})", span(seconds))
    }
}

/// The sentences below a picture, on whose axis no bar is drawn shorter than `least`.
pub(super) fn notes(picture: &Picture, axis: Option<&Axis>, least: u64) -> Vec<String> {
    let mut notes = verdict(picture);
    notes.extend(unlisted(picture));
    let Some(axis) = axis else {
        notes.push("No record is valid, and so there is no window to draw.".to_string());
        return notes;
    };
    let short = |(place, shown): (usize, &Shown)| {
        let Window { low, high, .. } = shown.told.ok()?;
        (axis.place(high) - axis.place(low) < least).then(|| place.to_string())
    };
    let short: Vec<String> = picture.records.iter().enumerate().filter_map(short).collect();
    if !short.is_empty() {
        let short = short.join(", ");
        notes.push(format!("Too short for this scale, and drawn longer: the windows of {short}."));
    }
    if axis.pieces.len() > 1 {
        notes.push("The axis is broken where no window is for long.".to_string());
    }
    notes
}

/// The lines of a text, each of at most `width` characters where its words allow it.
pub(super) fn wrapped(text: &str, width: usize) -> Vec<String> {
    let mut lines = vec![String::new()];
    for word in text.split(' ') {
        let line = lines.last_mut().expect("there is one from the start");
        if line.is_empty() {
            line.push_str(word);
        } else if line.chars().count() + 1 + word.chars().count() <= width {
            line.push(' ');
            line.push_str(word);
        } else {
            lines.push(word.to_string());
        }
    }
    lines
}
