//! Holds the wrong programs of crates/*/must-fail to the files that they change: each text that one
//! replaces stands there exactly once. rt says so too, but only after all proofs.

use crate::report::{at, no_words, unless, Verdict};
use crate::scan::numbered;
use crate::tree::{Edit, Tree, PROGRAM};
use std::collections::BTreeSet;

pub fn check(tree: &Tree, words: &[&str]) -> Verdict {
    no_words(words)?;
    let edits = tree.edits();
    let mut problems = Vec::new();
    let mut named = BTreeSet::new();
    for edit in &edits {
        problems.extend(misfits(tree, edit));
        if !named.insert(edit.full()) {
            problems.push(at(&edit.file, 1, &format!("{} has its name twice", edit.full())));
        }
    }
    unless(problems, format!("{} wrong programs fit the files that they change", edits.len()))
}

/// What is wrong with the replacements of one wrong program. One of several names its own files, and
/// nothing stands before the first of them, since rt would replace that, too.
fn misfits(tree: &Tree, edit: &Edit) -> Vec<String> {
    let whole = tree.read(&edit.file).unwrap_or_default();
    let before = whole.find(&edit.text).map_or(0, |start| whole[..start].lines().count());
    let mut file = String::new();
    let mut problems = Vec::new();
    let mut replaced = 0;
    for (number, line) in numbered(&edit.text) {
        let number = before + number;
        if let Some(name) = line.strip_prefix("file: ") {
            file = format!("crates/{}/{name}", edit.krate);
        } else if let Some(old) = line.strip_prefix("old: ") {
            replaced += 1;
            let times = tree.read(&file).map_or(0, |text| text.matches(old).count());
            if times != 1 {
                let what = format!("stands {times} times in {file}, and not once: {old}");
                problems.push(at(&edit.file, number, &what));
            }
        }
    }
    if !edit.alone && !whole.starts_with(PROGRAM) {
        problems.push(at(&edit.file, 1, "has lines before its first wrong program"));
    }
    if replaced == 0 {
        problems.push(at(&edit.file, before + 1, "has no line 'old: ' and so replaces nothing"));
    }
    problems
}

#[cfg(test)]
mod tests {
    use super::*;
    use crate::testing::{found, Scratch};

    const EDIT: &str = "crates/a/must-fail/one.edit";

    fn right() -> Scratch {
        let edit = "# words\nfile: src/lib.rt\nold: x + 1\nnew: x + 2\nold: y\nnew: z\n";
        Scratch::new(&[(EDIT, edit), ("crates/a/src/lib.rt", "x + 1\ny\n")])
    }

    #[test]
    fn texts_that_stand_there_once_pass() {
        assert!(check(&right().tree(), &[]).unwrap().starts_with("1 wrong programs fit"));
    }

    #[test]
    fn a_text_that_is_gone_is_found_and_each_of_them() {
        let tree = right();
        tree.put("crates/a/src/lib.rt", "nothing\n");
        let due = [
            format!("{EDIT}:3: stands 0 times in crates/a/src/lib.rt, and not once: x + 1"),
            format!("{EDIT}:5: stands 0 times in crates/a/src/lib.rt, and not once: y"),
        ];
        assert_eq!(found(check(&tree.tree(), &[])), due);
    }

    #[test]
    fn a_text_that_stands_there_twice_is_found_on_one_line_too() {
        for twice in ["x + 1\ny\ny\n", "x + 1\ny y\n"] {
            let tree = right();
            tree.put("crates/a/src/lib.rt", twice);
            let problems = found(check(&tree.tree(), &[]));
            assert_eq!(problems.len(), 1);
            assert!(problems[0].contains("one.edit:5: stands 2 times"), "{problems:?}");
        }
    }

    #[test]
    fn a_file_that_is_not_there_and_a_text_without_a_file_are_found() {
        let tree = right();
        tree.alter(EDIT, "src/lib.rt", "src/gone.rt");
        assert_eq!(found(check(&tree.tree(), &[])).len(), 2);
        tree.alter(EDIT, "file: src/gone.rt", "");
        assert_eq!(found(check(&tree.tree(), &[])).len(), 2);
    }

    #[test]
    fn one_of_several_is_found_by_its_own_line() {
        let tree = right();
        let other = "program: a\nfile: src/lib.rt\nold: y\nnew: z\nprogram: b\nold: x + 1\n";
        tree.put(EDIT, other);
        let due = [format!("{EDIT}:6: stands 0 times in , and not once: x + 1")];
        assert_eq!(found(check(&tree.tree(), &[])), due);
    }

    #[test]
    fn a_name_that_stands_twice_and_lines_before_the_first_are_found() {
        let tree = right();
        let one = "file: src/lib.rt\nold: y\nnew: z\n";
        tree.put("crates/a/must-fail/two.edit", &format!("program: one\n{one}"));
        assert_eq!(found(check(&tree.tree(), &[])).len(), 1);
        tree.put("crates/a/must-fail/two.edit", &format!("{one}program: two\n{one}"));
        let due = "two.edit:1: has lines before its first wrong program";
        assert!(found(check(&tree.tree(), &[]))[0].ends_with(due));
    }

    #[test]
    fn one_that_replaces_nothing_is_found() {
        let tree = right();
        tree.put(EDIT, "# words\nfile: src/lib.rt\n");
        assert_eq!(found(check(&tree.tree(), &[])).len(), 1);
    }
}
