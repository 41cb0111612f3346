//! Makes the changes of a file of wrong programs in a copy of its crate, all of them, as rt does.

use crate::report::{Checked, Verdict, Wrong};
use crate::tree::Tree;
use crate::whole;
use std::fs;
use std::path::Path;

pub fn check(tree: &Tree, words: &[&str]) -> Verdict {
    let [edit, folder] = words else { return Err(Wrong::Usage) };
    let (mut file, mut old, mut count) = ("", "", 0);
    let text = tree.read(edit)?;
    for line in text.lines() {
        if let Some(name) = line.strip_prefix("file: ") {
            file = name;
        } else if let Some(text) = line.strip_prefix("old: ") {
            old = text;
        } else if let Some(new) = line.strip_prefix("new:") {
            replace(&Path::new(folder).join(file), old, new.strip_prefix(' ').unwrap_or(new))?;
            count += 1;
        }
    }
    Ok(format!("{count} texts of {folder} are replaced"))
}

/// Replaces the one place of a file that has this text.
fn replace(file: &Path, old: &str, new: &str) -> Checked<()> {
    let wrong = |why: String| Wrong::one(format!("{}: {why}", file.display()));
    let text = fs::read_to_string(file).map_err(|why| wrong(format!("cannot be read: {why}")))?;
    match text.matches(old).count() {
        1 => whole::put(file, text.replacen(old, new, 1).as_bytes()),
        times => Err(wrong(format!("has {times} times, and not once: {old}"))),
    }
}

#[cfg(test)]
mod tests {
    use super::*;
    use crate::testing::{found, Scratch};

    fn applied(edit: &str) -> (Verdict, String) {
        let scratch = Scratch::new(&[("a.edit", edit), ("copy/src/lib.rt", "x + 1\ny\ny\n")]);
        let folder = scratch.tree().path("copy").to_string_lossy().into_owned();
        let verdict = check(&scratch.tree(), &["a.edit", &folder]);
        (verdict, scratch.tree().read("copy/src/lib.rt").unwrap())
    }

    #[test]
    fn a_change_is_made_of_what_the_earlier_ones_made() {
        let (verdict, text) =
            applied("program: a\nfile: src/lib.rt\nold: x + 1\nnew: x + 2\nold: + 2\nnew: + 3\n");
        assert!(verdict.unwrap().starts_with("2 texts of "));
        assert_eq!(text, "x + 3\ny\ny\n");
    }

    #[test]
    fn a_text_that_is_not_there_once_is_an_error() {
        let (verdict, _) = applied("file: src/lib.rt\nold: y\nnew: z\n");
        assert!(found(verdict)[0].ends_with("src/lib.rt: has 2 times, and not once: y"));
    }
}
