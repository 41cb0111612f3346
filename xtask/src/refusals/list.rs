//! The kept list, a line for each wrong program: its name, the file of its own first error, and the
//! kind of that error, with blanks between.

use super::kind::Kind;
use crate::report::{at, Checked, Wrong};
use crate::scan::numbered;

#[derive(Debug, PartialEq)]
pub struct Row {
    pub name: String,
    pub file: String,
    pub kind: Kind,
    /// Where the error is told, where it was read in what rt said.
    pub told: String,
}

/// What a line of rt's output tells of a wrong program that it refused.
#[derive(Debug, PartialEq)]
pub struct Refused<'a> {
    pub name: &'a str,
    /// The file of its first error, or "nowhere".
    pub file: &'a str,
    /// As much of that error as rt tells, and before it in brackets what it makes of it.
    pub error: &'a str,
}

const HOW: &str = ".edit: refused, as it must be";

pub fn refused(line: &str) -> Option<Refused<'_>> {
    let (name, error) = line.strip_prefix("rt: must-fail ")?.split_once(HOW)?;
    let told = match error.strip_prefix(" (") {
        Some(remark) => remark.split_once("): ").map_or("", |(_, told)| told),
        None => error.trim_start_matches(": "),
    };
    let told = told.strip_prefix("note: ").unwrap_or(told);
    let file = told.split_once(':').map_or("nowhere", |(file, _)| file.trim_start_matches("./"));
    Some(Refused { name, file, error })
}

pub fn text(rows: &[Row]) -> String {
    rows.iter().map(|row| format!("{} {} {}\n", row.name, row.file, row.kind.word())).collect()
}

pub fn read(file: &str, text: &str) -> Checked<Vec<(usize, Row)>> {
    let mut rows = Vec::new();
    let mut problems = Vec::new();
    for (number, line) in numbered(text) {
        match row(line) {
            Some(row) => rows.push((number, row)),
            None => problems.push(at(file, number, "is not a name, a file and a kind")),
        }
    }
    if problems.is_empty() {
        Ok(rows)
    } else {
        Err(Wrong::Found(problems))
    }
}

fn row(line: &str) -> Option<Row> {
    let [name, file, kind] = line.split(' ').collect::<Vec<_>>()[..] else { return None };
    let kind = Kind::named(kind)?;
    Some(Row { name: name.into(), file: file.into(), kind, told: String::new() })
}

#[cfg(test)]
mod tests {
    use super::*;
    use crate::testing::found;

    fn file_of(told: &str) -> String {
        let line = format!("rt: must-fail a/b.edit: refused, as it must be{told}");
        let refused = refused(&line).unwrap();
        assert_eq!((refused.name, refused.error), ("a/b", told));
        refused.file.into()
    }

    #[test]
    fn the_file_is_read_without_its_line() {
        assert_eq!(file_of(": ./proofs/P.antt:9:25: error: `returns`: x"), "proofs/P.antt");
        assert_eq!(file_of(": note: src/lib.rt:28:1: it is not proved"), "src/lib.rt");
        assert_eq!(file_of(" (only by a limit: less): proofs/P.antt:1:2: error"), "proofs/P.antt");
        assert_eq!(file_of(""), "nowhere");
        let line = "rt: must-fail a/b.edit: NOT REFUSED: the crate is still proved";
        assert_eq!(refused(line), None);
    }

    #[test]
    fn what_is_written_reads_back() {
        let line = "a/b proofs/P.antt unsolved\n";
        let rows = read("list", line).unwrap();
        assert_eq!(rows.len(), 1);
        assert_eq!(text(&rows.into_iter().map(|(_, row)| row).collect::<Vec<_>>()), line);
    }

    #[test]
    fn lines_of_another_form_are_found() {
        let problems = found(read("list", "a/b P.antt\na/b P.antt false\na/b P.antt wrong\n"));
        let what = "is not a name, a file and a kind";
        assert_eq!(problems, [format!("list:1: {what}"), format!("list:3: {what}")]);
    }
}
