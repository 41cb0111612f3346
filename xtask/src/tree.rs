//! The files of the repository, by their names below its root.

use crate::report::{Checked, Wrong};
use std::fs;
use std::path::{Path, PathBuf};

pub struct Tree {
    root: PathBuf,
}

/// A wrong program: its crate and its name; the file that has it, as the repository and as rt name
/// it; and its lines. A file has one wrong program, which has the file's name. Or it has several that
/// are tried together, each behind a line that names it.
pub struct Edit {
    pub krate: String,
    pub name: String,
    pub file: String,
    pub tried: String,
    pub text: String,
    /// Whether it is tried by itself.
    pub alone: bool,
}

/// What stands before the name of a wrong program that is tried together with others.
pub const PROGRAM: &str = "program: ";

impl Edit {
    pub fn full(&self) -> String {
        format!("{}/{}", self.krate, self.name)
    }

    /// Those of a file.
    fn of_file(krate: &str, stem: &str, file: &str, text: &str) -> Vec<Edit> {
        let edit = |name: &str, text: &str, alone| Edit {
            krate: krate.into(),
            name: name.into(),
            file: file.into(),
            tried: format!("{krate}/{stem}"),
            text: text.into(),
            alone,
        };
        let mut parts: Vec<(&str, String)> = Vec::new();
        for line in text.lines() {
            match (line.strip_prefix(PROGRAM), parts.last_mut()) {
                (Some(name), _) => parts.push((name, String::new())),
                (None, Some((_, part))) => part.push_str(&format!("{line}\n")),
                (None, None) => {}
            }
        }
        match parts[..] {
            [] => vec![edit(stem, text, true)],
            _ => parts.iter().map(|(name, part)| edit(name, part, false)).collect(),
        }
    }
}

/// What is made here, which is no part of the repository.
const MADE: [&str; 2] = [".git", "build"];

/// What rt keeps in the folder of each crate, which is none, either.
const KEPT: &str = "out";

impl Tree {
    pub fn at(root: &Path) -> Tree {
        Tree { root: root.to_path_buf() }
    }

    /// The repository that a folder is in: its root has crates.txt.
    pub fn above(folder: &Path) -> Option<Tree> {
        let root = folder.ancestors().find(|folder| folder.join("crates.txt").is_file())?;
        Some(Tree::at(root))
    }

    pub fn path(&self, file: &str) -> PathBuf {
        self.root.join(file)
    }

    pub fn has(&self, file: &str) -> bool {
        self.path(file).exists()
    }

    pub fn read(&self, file: &str) -> Checked<String> {
        fs::read_to_string(self.path(file))
            .map_err(|error| Wrong::one(format!("{file} cannot be read: {error}")))
    }

    /// The names of all files of the repository, sorted.
    pub fn files(&self) -> Vec<String> {
        let mut found = Vec::new();
        walk(&self.root, "", &MADE, &mut found);
        found.retain(|file| !is_kept(file));
        found.sort();
        found
    }

    /// The names of all files below a folder, sorted, without those that are made in the root.
    pub fn below(&self, folder: &str) -> Vec<String> {
        let mut found = Vec::new();
        walk(&self.path(folder), &format!("{folder}/"), &[], &mut found);
        found.sort();
        found
    }

    /// The names of the folders of crates/, sorted.
    fn crate_folders(&self) -> Vec<String> {
        let entries = fs::read_dir(self.path("crates")).into_iter().flatten().flatten();
        let names = entries.filter(|entry| entry.path().is_dir());
        let mut names: Vec<String> =
            names.map(|entry| entry.file_name().to_string_lossy().into_owned()).collect();
        names.sort();
        names
    }

    /// This file of each crate that has it.
    pub fn of_crates(&self, file: &str) -> Vec<String> {
        let named = self.crate_folders().into_iter().map(|name| format!("crates/{name}/{file}"));
        named.filter(|file| self.has(file)).collect()
    }

    /// The wrong programs of all crates, sorted by their full names.
    pub fn edits(&self) -> Vec<Edit> {
        let mut found = Vec::new();
        for krate in self.crate_folders() {
            for file in self.below(&format!("crates/{krate}/must-fail")) {
                let last = file.rsplit('/').next().unwrap_or(&file);
                if let Some(stem) = last.strip_suffix(".edit") {
                    let text = self.read(&file).unwrap_or_default();
                    found.extend(Edit::of_file(&krate, stem, &file, &text));
                }
            }
        }
        found.sort_by_key(Edit::full);
        found
    }

    /// The names of crates.txt, in its order. Other words may stand behind a name, as `staticlib`.
    pub fn crates(&self) -> Checked<Vec<String>> {
        let text = self.read("crates.txt")?;
        let named = text.lines().filter_map(|line| line.split('#').next()?.split_once(':'));
        let named = named.filter_map(|(words, _)| words.split_whitespace().next());
        Ok(named.map(str::to_string).collect())
    }

    /// The one file of this name among the crates, whichever of them has it.
    pub fn one_of_crates(&self, file: &str) -> Checked<String> {
        let mut found = self.of_crates(file);
        match (found.pop(), found.is_empty()) {
            (Some(one), true) => Ok(one),
            (None, _) => Err(Wrong::one(format!("no crate has {file}"))),
            (Some(_), false) => Err(Wrong::one(format!("more than one crate has {file}"))),
        }
    }
}

/// Whether a file stands in what rt keeps of a crate.
fn is_kept(file: &str) -> bool {
    let parts: Vec<&str> = file.splitn(4, '/').collect();
    parts.len() == 4 && parts[0] == "crates" && parts[2] == KEPT
}

/// Adds the files below a folder, with this before their names. Links are not followed.
fn walk(folder: &Path, before: &str, without: &[&str], found: &mut Vec<String>) {
    for entry in fs::read_dir(folder).into_iter().flatten().flatten() {
        let name = entry.file_name().to_string_lossy().into_owned();
        match entry.file_type() {
            Ok(kind) if kind.is_dir() && !without.contains(&name.as_str()) => {
                walk(&entry.path(), &format!("{before}{name}/"), &[], found);
            }
            Ok(kind) if kind.is_file() => found.push(format!("{before}{name}")),
            _ => {}
        }
    }
}

#[cfg(test)]
mod tests {
    use crate::testing::{found, Scratch};
    use crate::tree::Tree;

    #[test]
    fn what_is_made_is_no_part_of_it() {
        let scratch = Scratch::new(&[("a/b.md", ""), ("build/c.md", ""), ("a/build/d.md", "")]);
        assert_eq!(scratch.tree().files(), ["a/b.md", "a/build/d.md", "crates.txt"]);
        assert_eq!(scratch.tree().below("build"), ["build/c.md"]);
        let scratch =
            Scratch::new(&[("crates/a/out/rlib/b.rt", ""), ("crates/a/src/out/c.rt", "")]);
        assert_eq!(scratch.tree().files(), ["crates.txt", "crates/a/src/out/c.rt"]);
    }

    #[test]
    fn the_root_is_the_folder_with_the_list_of_crates() {
        let scratch = Scratch::new(&[("a/b/c", "")]);
        let tree = Tree::above(&scratch.tree().path("a/b")).unwrap();
        assert_eq!(tree.path("x"), scratch.tree().path("x"));
        assert!(Tree::above(std::path::Path::new("/")).is_none());
    }

    #[test]
    fn crates_are_those_of_the_list_and_its_comments_none() {
        let scratch =
            Scratch::new(&[("crates.txt", "# one: two\nlow:\nhigh staticlib: low # more: x\n\n")]);
        assert_eq!(scratch.tree().crates().unwrap(), ["low", "high"]);
    }

    #[test]
    fn wrong_programs_are_found_by_crate_and_name() {
        let scratch = Scratch::new(&[
            ("crates/b/must-fail/two.edit", ""),
            ("crates/a_c/must-fail/one.edit", ""),
            ("crates/a_c/must-fail/notes.txt", ""),
        ]);
        let names: Vec<String> = scratch.tree().edits().iter().map(|edit| edit.full()).collect();
        assert_eq!(names, ["a_c/one", "b/two"]);
    }

    #[test]
    fn several_of_a_file_have_a_name_and_lines_each() {
        let text = "program: up\n# more\nold: 1\nprogram: down\n# less\n";
        let scratch = Scratch::new(&[("crates/a/must-fail/both.edit", text)]);
        let [down, up] = &scratch.tree().edits()[..] else { panic!("there are two") };
        assert_eq!([up.full(), down.full()], ["a/up", "a/down"]);
        assert_eq!([&*up.text, &*down.text], ["# more\nold: 1\n", "# less\n"]);
        assert_eq!([&*up.tried, &*down.tried], ["a/both"; 2]);
        assert!(!up.alone && !down.alone);
    }

    #[test]
    fn a_file_that_is_to_be_of_one_crate_may_be_of_no_other() {
        let scratch = Scratch::new(&[("crates/a/src/t.rt", "")]);
        assert_eq!(scratch.tree().one_of_crates("src/t.rt").unwrap(), "crates/a/src/t.rt");
        assert_eq!(found(scratch.tree().one_of_crates("src/u.rt")), ["no crate has src/u.rt"]);
        scratch.put("crates/b/src/t.rt", "");
        let problem = found(scratch.tree().one_of_crates("src/t.rt"));
        assert_eq!(problem, ["more than one crate has src/t.rt"]);
    }
}
