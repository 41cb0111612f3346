//! What is wrong with files that are refused: more than the code says, which is one for many things.

use crate::evidence::is_text;
use crate::names;
use crate::status::reason;
use crate::why;
use crate::why_list;
use std::fs::{self, File};
use std::path::Path;
use trawlbeacon::{MOST_RECORDS, RECORD_LENGTH, SERVER_LENGTH};

/// What cannot be read counts as empty (document 01), so that a mistyped name looks like a bad pile.
pub fn unreadable(file: &Path) -> Option<String> {
    if file.as_os_str() == "-" {
        return None;
    }
    let why = match fs::metadata(file) {
        Err(error) => reason(error),
        Ok(found) if found.is_dir() => "it is a folder".to_string(),
        Ok(_) if file.to_str().is_none() => "its name is no UTF-8".to_string(),
        // Nothing but a file is opened here: of a pipe the program is to have every byte.
        Ok(found) if !found.is_file() => return None,
        Ok(_) => reason(File::open(file).err()?),
    };
    Some(format!("{} cannot be read, and counts as empty: {why}", names::file(file)))
}

/// A file by its name, and what it holds.
pub type Held<'a> = (&'a Path, &'a [u8]);

/// What is wrong with a pile and its answers, where they are refused with 15.
pub fn on_pile_and_answers(pile: Held, answers: Option<Held>) -> Vec<String> {
    let on_answers = answers.and_then(|answers| on_answers(answers, pile.1.len()));
    on_pile(pile).into_iter().chain(on_answers).collect()
}

/// What is wrong with a text, where it is refused with 24 or 25.
pub fn on_text((name, text): Held) -> Option<String> {
    why::no_report(text).map(|why| format!("{}: {why}", names::file(name)))
}

/// What is wrong with a list of servers in JSON, where it is refused with 24 or 25.
pub fn on_list((name, text): Held) -> Vec<String> {
    let why = why_list::no_list(text).map(|why| format!("{}: {why}", names::file(name)));
    why.into_iter().collect()
}

/// Which lists of servers are not whole, where they are refused with 21.
pub fn on_lists(lists: &[Held]) -> Vec<String> {
    let broken = lists.iter().filter(|(_, list)| list.len() % SERVER_LENGTH != 0);
    let told = |(name, list): &Held| {
        format!("{} has {}, and a server has {SERVER_LENGTH}", names::file(name), bytes(list))
    };
    broken.map(told).collect()
}

/// How many bytes these are.
fn bytes(held: &[u8]) -> String {
    format!("{} byte{}", held.len(), if held.len() == 1 { "" } else { "s" })
}

fn on_pile((name, pile): Held) -> Option<String> {
    let name = names::file(name);
    let records = pile.len() / RECORD_LENGTH;
    if pile.is_empty() {
        Some(format!("{name} is empty"))
    } else if why::is_utf16(pile) {
        Some(format!("{name} is a text in UTF-16; a report in JSON is UTF-8"))
    } else if is_text(pile) {
        Some(format!("{name} is a text; --judge, --cut and --draw take reports in JSON"))
    } else if pile.len() % RECORD_LENGTH != 0 {
        Some(format!("{name} has {}, and a record has {RECORD_LENGTH}", bytes(pile)))
    } else if records > MOST_RECORDS {
        Some(format!("{name} has {records} records, and a pile has at most {MOST_RECORDS}"))
    } else {
        None
    }
}

fn on_answers((name, answers): Held, pile: usize) -> Option<String> {
    let (name, length) = (names::file(name), bytes(answers));
    let (given, records) = (answers.len(), pile / RECORD_LENGTH);
    if let Some(at) = answers.iter().position(|byte| *byte > 1) {
        let byte = answers[at];
        let digit = if byte == b'0' || byte == b'1' { ", and no digit" } else { "" };
        Some(format!("byte {at} of {name} is {byte}; an answer is the byte 1 or 0{digit}"))
    } else if given % 2 != 0 {
        Some(format!("{name} has {length}, and there are two answers a record"))
    } else if given != 2 * records {
        let have = if records == 1 { "record has" } else { "records have" };
        Some(format!("{name} has {length}; {records} {have} {} answers", 2 * records))
    } else {
        None
    }
}
