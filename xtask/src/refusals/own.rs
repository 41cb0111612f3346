//! The error of one wrong program among several that are tried together. Each changes one function,
//! and the checker proves each function by itself: so each must have an error of its own, in that
//! function's proof, or on its code where the proof was rattle's own.

use super::first;
use crate::scan::numbered;
use crate::tree::{Edit, Tree};
use std::ops::Range;

/// A function that a wrong program changes: its file below the crate, and its lines there; and the
/// folder of its proof.
#[derive(PartialEq)]
struct Changed {
    file: String,
    folder: String,
    lines: Range<usize>,
}

impl Changed {
    /// Where its proof may stand below the crate.
    fn proofs(&self) -> [String; 3] {
        ["Answers", "Invariants", "Proof"].map(|file| format!("{}/{file}.antt", self.folder))
    }
}

/// The folder of a function's proof below its crate. That of a method stands in one with the name of
/// its type, and with the trait's behind it, wherever the type is declared.
fn folder(tree: &Tree, krate: &str, file: &str, name: &str, of: Option<&str>) -> String {
    let module = file.trim_start_matches("src/").trim_end_matches(".rt");
    let plain = match module {
        "lib" => format!("proofs/{name}"),
        _ => format!("proofs/{module}/{name}"),
    };
    let Some(of) = of else { return plain };
    let is_it = |folder: &str| {
        let mut parts = folder.rsplit('/');
        parts.next() == Some(name) && parts.next().map(without_sizes).as_deref() == Some(of)
    };
    let below = format!("crates/{krate}/");
    let files = tree.below(&format!("{below}proofs"));
    let folders = files.iter().filter_map(|file| file.strip_prefix(&below)?.rsplit_once('/'));
    folders.map(|(folder, _)| folder.to_string()).find(|folder| is_it(folder)).unwrap_or(plain)
}

/// A name of a type without the sizes of tuples in it: `Tuple2` is not there.
fn without_sizes(name: &str) -> String {
    let mut parts = name.split("Tuple");
    let first = parts.next().unwrap_or_default().to_string();
    let digit = |c: char| c.is_ascii_digit();
    parts.fold(first, |all, part| all + part.trim_start_matches(digit))
}

/// What an `impl` is of, as a folder of proofs names it, but for the sizes of tuples: the type, and
/// behind it the trait with what it takes.
fn of_impl(line: &str) -> Option<String> {
    let words = line.strip_prefix("impl")?.trim_end_matches('{');
    let words = match words.strip_prefix('<') {
        Some(rest) => rest.split_once("> ")?.1,
        None => words,
    };
    let (of, taken) = words.split_once(" for ").map_or((words, ""), |(of, to)| (to, of));
    let named = |words: &str| -> Vec<String> {
        let in_word = |c: char| c.is_alphanumeric() || c == '_' || c == '\'';
        let words = words.split(|c: char| !in_word(c));
        let words = words.filter(|word| !word.is_empty() && !word.starts_with('\''));
        words.map(|word| word[..1].to_uppercase() + &word[1..]).collect()
    };
    Some(named(of).into_iter().take(1).chain(named(taken)).collect())
}

/// The file of the wrong program's error, the line of the log that it begins on, and all of it; or
/// why it has none of its own.
pub fn error(tree: &Tree, edit: &Edit, log: &str) -> Result<(String, usize, String), String> {
    let changed = changed(tree, edit)?;
    let code = &changed.file;
    let on_code = |line: &str| {
        let noted = line.strip_prefix("note: ").filter(|_| first::on_code(line));
        let number = noted.and_then(|line| place(line, code));
        number.map_or(false, |number| changed.lines.contains(&number))
    };
    let of = |file: &str, wanted: &dyn Fn(&str) -> bool| {
        let (line, text) = first::error_where(log, wanted)?;
        Some((file.to_string(), line, text))
    };
    let proofs = changed.proofs();
    let in_proof = |proof: &String, wanted: fn(&str) -> bool| {
        let is_it = |line: &str| first::is_error(line) && place(line, proof).is_some();
        of(proof, &|line: &str| is_it(line) && wanted(line))
    };
    let found = proofs
        .iter()
        .find_map(|proof| in_proof(proof, |line| !names_what_is_gone(line)))
        .or_else(|| proofs.iter().find_map(|proof| in_proof(proof, |_| true)))
        .or_else(|| of(code, &on_code));
    found.ok_or_else(|| format!("has no error of the function that {} changes", edit.full()))
}

/// Whether an error is only of a name that the wrong program took away, such as a goal's, which tells
/// little of it: as rt does, another error goes first.
fn names_what_is_gone(line: &str) -> bool {
    ["has no field", "is not in scope", "has no `", "was not admitted"]
        .iter()
        .any(|words| line.contains(words))
}

/// The number of the line of this file that a message begins with, as `FILE:LINE:COLUMN:`.
fn place(message: &str, file: &str) -> Option<usize> {
    let place = message.split(' ').next()?.trim_start_matches("./");
    let numbers = place.strip_prefix(file)?.strip_prefix(':')?;
    numbers.split(':').next()?.parse().ok()
}

/// The one function that a wrong program changes. Beside its code it may change its proof, and what
/// a file imports.
fn changed(tree: &Tree, edit: &Edit) -> Result<Changed, String> {
    let alone = |why: &str| format!("{} is to be tried alone: it {why}", edit.full());
    let (mut file, mut found, mut others) = ("", None, Vec::new());
    for line in edit.text.lines() {
        if let Some(name) = line.strip_prefix("file: ") {
            file = name;
        } else if let Some(old) = line.strip_prefix("old: ") {
            if !file.starts_with("src/") {
                others.push(file);
            } else if !old.starts_with("use ") {
                let here = function(tree, edit, file, old)
                    .ok_or_else(|| alone("changes code that is in no function"))?;
                if found.as_ref().map_or(false, |other| *other != here) {
                    return Err(alone("changes two functions"));
                }
                found = Some(here);
            }
        }
    }
    let found = found.ok_or_else(|| alone("changes no function"))?;
    let proofs = found.proofs();
    match others.iter().all(|file| proofs.iter().any(|proof| proof == file)) {
        true => Ok(found),
        false => Err(alone("changes what other functions rest on")),
    }
}

/// The function that a text of code is in: its last line is the first that is a brace alone, as far
/// in as its first. One that stands further in is a method of what the `impl` before it is of.
fn function(tree: &Tree, edit: &Edit, file: &str, old: &str) -> Option<Changed> {
    let code = tree.read(&format!("crates/{}/{file}", edit.krate)).ok()?;
    let at = code[..code.find(old)?].matches('\n').count() + 1;
    let lines: Vec<(usize, &str)> = numbered(&code).collect();
    let (start, line, name) = lines[..at].iter().rev().find_map(|(number, line)| {
        let name = name(line.trim_start())?;
        Some((*number, *line, name))
    })?;
    let indent = &line[..line.len() - line.trim_start().len()];
    let of = match indent {
        "" => None,
        _ => Some(lines[..start].iter().rev().find_map(|(_, line)| of_impl(line))?),
    };
    let last = format!("{indent}}}");
    let end = lines[start..].iter().find(|(_, line)| *line == last).map(|(number, _)| *number)?;
    let folder = folder(tree, &edit.krate, file, name, of.as_deref());
    (at <= end).then(|| Changed { file: file.into(), folder, lines: start..end + 1 })
}

/// The name of the function whose first line this is.
fn name(line: &str) -> Option<&str> {
    let words = line.trim_start_matches("pub ").trim_start_matches("extern \"C\" ");
    words.strip_prefix("fn ")?.split(|c: char| !(c.is_alphanumeric() || c == '_')).next()
}

#[cfg(test)]
mod tests {
    use super::*;
    use crate::testing::Scratch;

    const CODE: &str = "pub fn first(x: u8) -> u8 {\n    x\n}\n\n\
        impl<'a> Part<'a> {\n    pub fn get(&self) -> u8 {\n        1\n    }\n}\n\n\
        impl From<(Part<'_>, usize)> for Whole {\n    fn from(x: u8) -> Whole {\n        2\n    }\n}\n";

    const EDITS: &str = "program: one\nfile: src/parts.rt\nold:     x\nnew:     y\n\
        program: two\nfile: src/parts.rt\nold:         1\nnew:         2\n\
        program: three\nfile: src/parts.rt\nold:         2\nnew:         3\n\
        file: proofs/parts/WholeFromTuple2PartUsize/from/Answers.antt\nold: a\nnew: b\n";

    const FOLDERS: [&str; 3] =
        ["proofs/parts/first", "proofs/Part/get", "proofs/parts/WholeFromTuple2PartUsize/from"];

    #[test]
    fn a_function_and_a_method_have_errors_of_their_own() {
        let files = FOLDERS.map(|folder| format!("crates/a/{folder}/Answers.antt"));
        let scratch = Scratch::new(&[
            ("crates/a/src/parts.rt", CODE),
            ("crates/a/must-fail/together.edit", EDITS),
            (&files[0], ""),
            (&files[1], ""),
            (&files[2], "a\n"),
        ]);
        let told = |folder| format!("./{folder}/Answers.antt:1:2: error: `returns`: no\n");
        let log = FOLDERS.map(told).concat();
        let tree = scratch.tree();
        for edit in tree.edits() {
            let place = ["one", "two", "three"].iter().position(|name| *name == edit.name).unwrap();
            let (file, line, _) = error(&tree, &edit, &log).unwrap();
            assert_eq!((file, line), (format!("{}/Answers.antt", FOLDERS[place]), place + 1));
        }
    }
}
