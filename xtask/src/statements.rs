//! Holds docs/STATEMENTS.md to the tree: each wrong program in a must-fail folder and each theorem
//! in a file Once.antt stands on the page, and what the page names of either kind is there. It says
//! nothing of whether what the page tells of them is right.

use crate::markdown::{backquoted, columns};
use crate::report::{at, no_words, unless, Checked, Verdict};
use crate::scan::{in_name, is_all, numbered};
use crate::tree::{Edit, Tree};
use std::collections::BTreeSet;

const PAGE: &str = "docs/STATEMENTS.md";

pub fn check(tree: &Tree, words: &[&str]) -> Verdict {
    no_words(words)?;
    let text = tree.read(PAGE)?;
    let edits = tree.edits();
    let theorems = theorems(tree)?;
    let mut problems = lacking(&text, &edits, &theorems);
    problems.extend(edits_not_there(&text, &edits));
    problems.extend(theorems_not_there(&text, &theorems));
    let held = format!(
        "{} wrong programs and {} theorems of uniqueness are on the page",
        edits.len(),
        theorems.len()
    );
    unless(problems, held)
}

/// A theorem's name, and where it stands.
struct Theorem {
    name: String,
    file: String,
    line: usize,
}

/// The exports' theorems are told of as a whole: tb-..-once.
fn is_told(name: &str) -> bool {
    name.ends_with("-once") && !name.starts_with("tb-")
}

fn theorems(tree: &Tree) -> Checked<Vec<Theorem>> {
    let mut found = Vec::new();
    for file in tree.of_crates("proofs/Once.antt") {
        for (line, text) in numbered(&tree.read(&file)?) {
            let name = text.strip_prefix("pub ").and_then(|rest| rest.split_once(" :"));
            let Some((name, _)) = name else { continue };
            let letters = |c: char| c == '-' || c.is_ascii_lowercase() || c.is_ascii_digit();
            if is_told(name) && is_all(name, letters) {
                found.push(Theorem { name: name.into(), file: file.clone(), line });
            }
        }
    }
    Ok(found)
}

/// Every name in backquotes, as CRATE/NAME or alone; `..-once` stands for many.
fn quoted(text: &str) -> Vec<(usize, &str)> {
    backquoted(text).into_iter().filter(|(_, name)| !name.starts_with("..-")).collect()
}

/// The same without the crate.
fn last(name: &str) -> &str {
    name.rsplit('/').next().unwrap_or(name)
}

fn lacking(text: &str, edits: &[Edit], theorems: &[Theorem]) -> Vec<String> {
    let named: BTreeSet<&str> = quoted(text).into_iter().map(|(_, name)| last(name)).collect();
    let edits = edits.iter().filter(|edit| !named.contains(edit.name.as_str()));
    let theorems = theorems.iter().filter(|theorem| !named.contains(theorem.name.as_str()));
    let edits = edits
        .map(|edit| at(&edit.file, 1, &format!("{PAGE} lacks the wrong program {}", edit.name)));
    let theorems = theorems.map(|theorem| {
        at(&theorem.file, theorem.line, &format!("{PAGE} lacks the theorem {}", theorem.name))
    });
    edits.chain(theorems).collect()
}

/// The wrong programs that the page names: as CRATE/NAME anywhere, and alone in the tables of
/// operations, of which they are the fourth column.
fn edits_not_there(text: &str, edits: &[Edit]) -> Vec<String> {
    let full: BTreeSet<String> = edits.iter().map(Edit::full).collect();
    let alone: BTreeSet<&str> = edits.iter().map(|edit| edit.name.as_str()).collect();
    let by_crate = quoted(text).into_iter().filter(|(_, name)| {
        let parts = name.split_once('/');
        parts.map_or(false, |(krate, name)| is_all(krate, in_name) && is_all(name, in_name))
            && !full.contains(*name)
    });
    let tabled = tabled(text).into_iter().filter(|(_, name)| !alone.contains(name));
    let words = "names a wrong program that is not there";
    by_crate.chain(tabled).map(|(line, name)| at(PAGE, line, &format!("{words}: {name}"))).collect()
}

fn tabled(text: &str) -> Vec<(usize, &str)> {
    let mut found = Vec::new();
    for (number, line) in numbered(text) {
        if let [_, _, _, edits, _] = columns(line)[..] {
            let names = backquoted(edits).into_iter().map(|(_, name)| name);
            found.extend(names.filter(|name| is_all(name, in_name)).map(|name| (number, name)));
        }
    }
    found
}

fn theorems_not_there(text: &str, theorems: &[Theorem]) -> Vec<String> {
    let there: BTreeSet<&str> = theorems.iter().map(|theorem| theorem.name.as_str()).collect();
    let named = quoted(text).into_iter().map(|(line, name)| (line, last(name)));
    let missing = named.filter(|(_, name)| is_told(name) && !there.contains(name));
    missing
        .map(|(line, name)| at(PAGE, line, &format!("names a theorem that is not there: {name}")))
        .collect()
}

#[cfg(test)]
mod tests {
    use super::*;
    use crate::testing::{found, Scratch};

    const TEXT: &str = "| operation | file | theorem | wrong programs | demand |\n\
        |---|---|---|---|---|\n\
        | put | a.rt | `put-once` | `too_long`, `bad` | 1 |\n\
        \n\
        All have `..-once`, exports `tb-put-once`; `low_1/other` is told apart, and `a-law`.\n";

    fn right() -> Scratch {
        Scratch::new(&[
            (PAGE, TEXT),
            ("crates/low_1/must-fail/too_long.edit", ""),
            ("crates/low_1/must-fail/bad.edit", ""),
            ("crates/low_1/must-fail/other.edit", ""),
            ("crates/low_1/proofs/Once.antt", "pub put-once : Law\nput-once = x\npub law : Law\n"),
            ("crates/capi/proofs/Once.antt", "pub tb-put-once : Law\n"),
        ])
    }

    #[test]
    fn a_page_that_has_all_of_it_passes() {
        let said = check(&right().tree(), &[]).unwrap();
        assert_eq!(said, "3 wrong programs and 1 theorems of uniqueness are on the page");
    }

    #[test]
    fn a_wrong_program_that_the_page_lacks_is_found() {
        let tree = right();
        tree.put("crates/low_1/must-fail/new.edit", "");
        let due =
            "crates/low_1/must-fail/new.edit:1: docs/STATEMENTS.md lacks the wrong program new";
        assert_eq!(found(check(&tree.tree(), &[])), [due]);
    }

    #[test]
    fn a_theorem_that_the_page_lacks_is_found() {
        let tree = right();
        tree.put("crates/b/proofs/Once.antt", "\npub get-once : Law\n");
        let due = "crates/b/proofs/Once.antt:2: docs/STATEMENTS.md lacks the theorem get-once";
        assert_eq!(found(check(&tree.tree(), &[])), [due]);
    }

    #[test]
    fn a_wrong_program_of_the_page_that_is_gone_is_found_in_words_and_in_tables() {
        let tree = right();
        tree.remove("crates/low_1/must-fail/other.edit");
        tree.remove("crates/low_1/must-fail/bad.edit");
        let due = [
            "docs/STATEMENTS.md:5: names a wrong program that is not there: low_1/other",
            "docs/STATEMENTS.md:3: names a wrong program that is not there: bad",
        ];
        assert_eq!(found(check(&tree.tree(), &[])), due);
    }

    #[test]
    fn a_wrong_program_under_another_crate_is_found() {
        let tree = right();
        tree.alter(PAGE, "low_1/other", "low/other");
        let due = "docs/STATEMENTS.md:5: names a wrong program that is not there: low/other";
        assert_eq!(found(check(&tree.tree(), &[])), [due]);
    }

    #[test]
    fn a_theorem_of_the_page_that_is_gone_is_found() {
        let tree = right();
        tree.put("crates/low_1/proofs/Once.antt", "put-once : Law\n");
        let due = "docs/STATEMENTS.md:3: names a theorem that is not there: put-once";
        assert_eq!(found(check(&tree.tree(), &[])), [due]);
    }

    #[test]
    fn all_is_said_at_once() {
        let tree = right();
        tree.put(PAGE, "`low_1/gone` `gone-once`\n");
        assert_eq!(found(check(&tree.tree(), &[])).len(), 6);
    }
}
