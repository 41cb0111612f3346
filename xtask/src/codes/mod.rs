//! The refusal codes have one table, src/codes.rt of the crate that has it: their numbers, names
//! and words. The header and the hosts in Rust, Python and JavaScript have them between two
//! comments of a line each, "codes: begin" and "codes: end"; this fails where one says anything
//! else, and with --write writes them anew.

mod in_c;
mod in_js;
mod in_python;
mod in_rust;
mod lines;
pub mod table;

use crate::report::{at, unless, write_flag, Checked, Verdict, Wrong};
use crate::scan::numbered;
use crate::tree::Tree;
use crate::whole;

/// A file that has the codes, the marks around them, and what makes the lines between.
struct Place {
    file: &'static str,
    begin: &'static str,
    end: &'static str,
    part: fn(&[table::Code]) -> String,
}

const PLACES: [Place; 5] = [
    Place {
        file: "include/trawlbeacon.h",
        begin: "/* codes: begin */",
        end: "/* codes: end */",
        part: in_c::part,
    },
    Place {
        file: "hosts/rust/src/refusal.rs",
        begin: "// codes: begin",
        end: "// codes: end",
        part: in_rust::part,
    },
    Place {
        file: "hosts/python/trawlbeacon/codes.py",
        begin: "# codes: begin",
        end: "# codes: end",
        part: in_python::part,
    },
    Place {
        file: "hosts/js/codes.js",
        begin: "// codes: begin",
        end: "// codes: end",
        part: in_js::part,
    },
    Place {
        file: "hosts/js/trawlbeacon.d.ts",
        begin: "// codes: begin",
        end: "// codes: end",
        part: in_js::types,
    },
];

pub fn check(tree: &Tree, words: &[&str]) -> Verdict {
    let write = write_flag(words)?;
    let table = table::file(tree)?;
    let codes = table::read(&table, &tree.read(&table)?)?;
    let mut problems = Vec::new();
    let mut written = String::new();
    for place in &PLACES {
        let old = tree.read(place.file)?;
        let new = renewed(place, &old, &(place.part)(&codes))?;
        if old == new {
            continue;
        }
        if write {
            whole::put(&tree.path(place.file), new.as_bytes())?;
            written += &format!("; {} is written anew", place.file);
        } else {
            let what = format!("differs from {table}; cargo xtask codes --write puts that right");
            problems.push(at(place.file, first_difference(&old, &new), &what));
        }
    }
    let files: Vec<&str> = PLACES.iter().map(|place| place.file).collect();
    let held = format!("{} codes are as in {table} in {}", codes.len(), files.join(", "));
    unless(problems, held + &written)
}

/// The file, with its part between the two marks replaced.
fn renewed(place: &Place, text: &str, part: &str) -> Checked<String> {
    let marked = |mark: &str| -> Vec<usize> {
        let lines = numbered(text).filter(|(_, line)| *line == mark);
        lines.map(|(number, _)| number).collect()
    };
    let (begins, ends) = (marked(place.begin), marked(place.end));
    let ([begin], [end]) = (&begins[..], &ends[..]) else { return Err(unmarked(place)) };
    if begin > end {
        return Err(unmarked(place));
    }
    let lines: Vec<&str> = text.lines().collect();
    let (before, after) = (lines[..*begin].join("\n"), lines[end - 1..].join("\n"));
    Ok(format!("{before}\n{part}{after}\n"))
}

fn unmarked(place: &Place) -> Wrong {
    let Place { file, begin, end, .. } = place;
    Wrong::one(format!("{file}: has not one line '{begin}' and after it one line '{end}'"))
}

fn first_difference(old: &str, new: &str) -> usize {
    1 + old.lines().zip(new.lines()).take_while(|(old, new)| old == new).count()
}

#[cfg(test)]
mod tests {
    use super::*;
    use crate::testing::{found, Scratch};

    const TABLE: &str = "// Words.\n\n// too long\npub const LONG: u8 = 1;\n";

    /// A tree whose files are written by the check itself.
    fn right() -> Scratch {
        let header = "a\n/* codes: begin */\nold\n/* codes: end */\nb\n";
        let hosts: Vec<String> = PLACES[1..]
            .iter()
            .map(|place| format!("a\n{}\n{}\n", place.begin, place.end))
            .collect();
        let first = [("crates/some/src/codes.rt", TABLE), (PLACES[0].file, header)];
        let others = PLACES[1..].iter().zip(&hosts).map(|(place, host)| (place.file, &host[..]));
        let files: Vec<(&str, &str)> = first.into_iter().chain(others).collect();
        let scratch = Scratch::new(&files);
        let said = check(&scratch.tree(), &["--write"]).unwrap();
        assert!(said.contains("trawlbeacon.h is written anew"), "{said}");
        assert!(said.contains("refusal.rs is written anew"), "{said}");
        scratch
    }

    #[test]
    fn what_was_written_passes_and_stands_between_the_marks() {
        let scratch = right();
        let said = check(&scratch.tree(), &[]).unwrap();
        assert!(said.starts_with("1 codes are as in crates/some/src/codes.rt"), "{said}");
        let header = scratch.tree().read(PLACES[0].file).unwrap();
        assert!(header.starts_with("a\n/* codes: begin */\nenum tb_code {\n"));
        assert!(header.ends_with("\n/* codes: end */\nb\n"));
    }

    #[test]
    fn each_file_that_differs_is_found_and_neither_is_written() {
        let scratch = right();
        scratch.alter(PLACES[0].file, "TB_LONG = 1", "TB_LONG = 2");
        scratch.alter(PLACES[1].file, "\"too long\"", "\"too short\"");
        let before = scratch.tree().read(PLACES[0].file).unwrap();
        let problems = found(check(&scratch.tree(), &[]));
        assert_eq!(problems.len(), 2);
        assert!(problems[0].starts_with("include/trawlbeacon.h:7: differs from crates/some"));
        assert!(problems[1].starts_with("hosts/rust/src/refusal.rs:"));
        assert_eq!(scratch.tree().read(PLACES[0].file).unwrap(), before);
    }

    #[test]
    fn a_code_more_is_found() {
        let scratch = right();
        let more = format!("{TABLE}\n// too short\npub const SHORT: u8 = 2;\n");
        scratch.put("crates/some/src/codes.rt", &more);
        assert_eq!(found(check(&scratch.tree(), &[])).len(), PLACES.len());
    }

    #[test]
    fn marks_that_are_missing_twice_or_in_the_wrong_order_are_found() {
        let other = [
            ("/* codes: end */", ""),
            ("/* codes: begin */", "/* codes: begin */\n/* codes: begin */"),
            ("a\n", "/* codes: end */\n"),
        ];
        let turned = right();
        turned.put(PLACES[0].file, "/* codes: end */\n/* codes: begin */\n");
        assert!(found(check(&turned.tree(), &[]))[0].contains("has not one line"));
        for (old, new) in other {
            let scratch = right();
            scratch.alter(PLACES[0].file, old, new);
            assert!(found(check(&scratch.tree(), &[]))[0].contains("has not one line"));
        }
    }
}
