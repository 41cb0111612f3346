//! Holds where and why each wrong program is refused to tools/refusals.txt: the file of its first
//! error, and the kind of that error, both as the saved output of rt ci tells them, which has the
//! first 160 letters of the error. Of several that stand in one file rt ci tells the first error
//! alone. For these it is the first error of each in the function that it changes, of all that
//! rattle says of the crate with these programs, which tools/try-together saves. There it was read
//! that a program is refused for what its first line says. Where a proof moved and another refuses
//! it, that is to be read again; then --write writes the list anew, of an output that has every
//! wrong program.

mod first;
mod kind;
mod list;
mod own;

use crate::report::{at, unless, Checked, Verdict, Wrong};
use crate::scan::numbered;
use crate::tree::{Edit, Tree};
use crate::whole;
use kind::Kind;
use list::{Refused, Row};
use std::collections::BTreeMap;
use std::fs;

const LIST: &str = "tools/refusals.txt";

/// Where tools/try-together saves what is said of several together.
const TOGETHER: &str = "build/together";

pub fn check(tree: &Tree, words: &[&str]) -> Verdict {
    let (said, write) = match words {
        ["--write", said] => (said, true),
        [said] if !said.starts_with('-') => (said, false),
        _ => return Err(Wrong::Usage),
    };
    let rows = of_run(tree, said)?;
    let mut problems = [never_right(&rows), shared(&rows)].concat();
    if write {
        whole::put(&tree.path(LIST), list::text(&rows).as_bytes())?;
    } else {
        problems.extend(differences(&list::read(LIST, &tree.read(LIST)?)?, &rows, said));
    }
    unless(problems, format!("{} wrong programs: {}", rows.len(), in_words(&rows)))
}

/// What a run says of every wrong program, sorted by name. One that it does not have is an error,
/// lest it be passed over.
fn of_run(tree: &Tree, said: &str) -> Checked<Vec<Row>> {
    let text = fs::read(said).map_err(|why| Wrong::one(format!("{said} cannot be read: {why}")))?;
    let text = String::from_utf8_lossy(&text);
    let told: BTreeMap<&str, (usize, Refused)> = numbered(&text)
        .filter_map(|(number, line)| list::refused(line).map(|it| (it.name, (number, it))))
        .collect();
    let (mut rows, mut problems) = (Vec::new(), Vec::new());
    for edit in tree.edits() {
        let found = match told.get(edit.tried.as_str()) {
            None => Err(format!("{said}: does not have {} as refused", edit.tried)),
            Some((number, refused)) if edit.alone => Ok(row(&edit, said, *number, refused)),
            Some(_) => together(tree, &edit),
        };
        match found {
            Ok(row) => rows.push(row),
            Err(problem) => problems.push(problem),
        }
    }
    if problems.is_empty() {
        Ok(rows)
    } else {
        Err(Wrong::Found(problems))
    }
}

fn row(edit: &Edit, said: &str, number: usize, refused: &Refused) -> Row {
    Row {
        name: edit.full(),
        file: refused.file.into(),
        kind: Kind::of(refused.error),
        told: format!("{said}:{number}"),
    }
}

/// What is said of one of several that are tried together.
fn together(tree: &Tree, edit: &Edit) -> Result<Row, String> {
    let log = format!("{TOGETHER}/{}", edit.tried);
    let bytes = fs::read(tree.path(&log)).map_err(|why| format!("{log} cannot be read: {why}"))?;
    let text = String::from_utf8_lossy(&bytes);
    let (file, line, error) =
        own::error(tree, edit, &text).map_err(|why| format!("{log}: {why}"))?;
    Ok(Row { name: edit.full(), file, kind: Kind::of(&error), told: format!("{log}:{line}") })
}

/// A wrong program whose proof merely does not fit it shows nothing of what is wrong in it.
fn never_right(rows: &[Row]) -> Vec<String> {
    let unfit = rows.iter().filter(|row| row.kind == Kind::Unfit);
    let what =
        "only shows that the proof no longer fits the code, and no false fact: give the edit \
                the proof's lines that fit it";
    unfit.map(|row| format!("{}: {} {what}", row.told, row.name)).collect()
}

/// Two wrong programs that change one function have one error between them, which is no evidence of
/// either.
fn shared(rows: &[Row]) -> Vec<String> {
    let mut first: BTreeMap<&str, &str> = BTreeMap::new();
    let mut problems = Vec::new();
    for Row { name, told, .. } in rows {
        if let Some(other) = first.insert(told, name) {
            problems
                .push(format!("{told}: {other} and {name} change one function: try them apart"));
        }
    }
    problems
}

fn differences(kept: &[(usize, Row)], rows: &[Row], said: &str) -> Vec<String> {
    let how = format!("read again why, and then cargo xtask refusals --write {said}");
    let due: BTreeMap<&str, &Row> = rows.iter().map(|row| (row.name.as_str(), row)).collect();
    let mut problems = Vec::new();
    for (line, old) in kept {
        let name = &old.name;
        let what = match due.get(name.as_str()) {
            None => format!("there is no wrong program {name}"),
            Some(new) if (&new.file, new.kind) != (&old.file, old.kind) => format!(
                "{name} was refused in {} ({}), and is in {} ({}) now, by {}: {how}",
                old.file,
                old.kind.word(),
                new.file,
                new.kind.word(),
                new.told
            ),
            Some(_) => continue,
        };
        problems.push(at(LIST, *line, &what));
    }
    let listed = |row: &&Row| kept.iter().any(|(_, old)| old.name == row.name);
    let missing = rows.iter().filter(|row| !listed(row));
    problems.extend(missing.map(|row| format!("{LIST}: lacks {}: {how}", row.name)));
    problems
}

/// How many there are of each kind.
fn in_words(rows: &[Row]) -> String {
    let counted = Kind::ALL
        .iter()
        .map(|kind| (kind.word(), rows.iter().filter(|row| row.kind == *kind).count()));
    let some = counted.filter(|(_, count)| *count > 0);
    some.map(|(word, count)| format!("{count} {word}")).collect::<Vec<_>>().join(", ")
}

#[cfg(test)]
mod tests;
