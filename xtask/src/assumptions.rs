//! Holds what rt said of each crate to the claim that no proof assumes anything: a library is
//! proved with no axiom of its own. A program is linked with functions of C's, whose contracts the
//! kit assumes, for it and for what is below it; the kit counts them at the program, and they are
//! told here.
//!
//! It reads the saved output of rt ci, which has a part for each crate that this run proved. Of a
//! crate that an earlier run proved rt says only that, and that run refused what declares functions
//! of C's. So the kit's last words on what is shipped are read, too, which speak of all that is
//! linked: build/module/NAME.said, of the C boundary and of the program.

use crate::report::{unless, Verdict, Wrong};
use crate::scan::{digits, numbered};
use crate::tree::Tree;
use std::collections::{BTreeMap, BTreeSet};

pub fn check(tree: &Tree, words: &[&str]) -> Verdict {
    let (said, logs) = words.split_first().ok_or(Wrong::Usage)?;
    let text = tree.read(said)?;
    let run = Run::of(&text);
    let mut found = Found::default();
    for name in tree.crates()? {
        match run.verdicts.get(name.as_str()) {
            Some((line, verdict)) => found.take(tree, &name, &format!("{said}:{line}"), verdict),
            None if run.kept.contains(name.as_str()) => found.kept += 1,
            None => found.problems.push(format!("{said}: rt has not said that {name} is proved")),
        }
    }
    for log in logs {
        let name = log.rsplit('/').next().and_then(|name| name.strip_suffix(".said"));
        let name = name.ok_or(Wrong::Usage)?;
        let text = tree.read(log)?;
        let last = numbered(&text).filter(|(_, line)| line.starts_with("logic=")).last();
        let (line, verdict) = last.unwrap_or((0, ""));
        found.take(tree, name, &format!("{log}:{line}"), verdict);
        found.shipped.push(name.to_string());
    }
    found.verdict()
}

/// The last word on each crate that a run of rt ci proved, as `logic=proved functions=14 sum=..`,
/// with its line; and the crates that an earlier run proved.
#[derive(Default)]
struct Run<'a> {
    verdicts: BTreeMap<&'a str, (usize, &'a str)>,
    kept: BTreeSet<&'a str>,
}

impl<'a> Run<'a> {
    /// The part of a crate begins with `== NAME`, and that of its tests with more behind the name.
    fn of(said: &'a str) -> Run<'a> {
        let mut run = Run::default();
        let mut part = "";
        for (number, line) in numbered(said) {
            let kept = line.strip_prefix("rt: ").and_then(|rest| rest.split_once(" is kept: "));
            if let Some(name) = line.strip_prefix("== ") {
                part = name;
            } else if line.starts_with("logic=") {
                run.verdicts.insert(part, (number, line));
            } else if let Some((name, _)) = kept {
                run.kept.insert(name);
            }
        }
        run
    }
}

#[derive(Default)]
struct Found {
    programs: BTreeMap<String, String>,
    libraries: BTreeSet<String>,
    shipped: Vec<String>,
    kept: usize,
    problems: Vec<String>,
}

impl Found {
    /// Looks at the last word on a crate, which stands there.
    fn take(&mut self, tree: &Tree, name: &str, place: &str, verdict: &str) {
        let axioms = verdict.split_once("axioms=").map(|(_, rest)| digits(rest));
        if !verdict.starts_with("logic=proved ") {
            self.problems.push(format!("{place}: {name} is not proved: {verdict}"));
        } else if verdict.contains("foreign=") {
            self.problems.push(format!("{place}: {name} assumes something: {verdict}"));
        } else if tree.has(&format!("crates/{name}/src/main.rt")) {
            self.programs.insert(name.into(), axioms.unwrap_or("0").into());
        } else if axioms.is_some() {
            self.problems.push(format!("{place}: {name} assumes something: {verdict}"));
        } else {
            self.libraries.insert(name.into());
        }
    }

    fn verdict(self) -> Verdict {
        let programs = self.programs.iter().map(|(name, axioms)| format!("{name} {axioms}"));
        let programs: Vec<String> = programs.collect();
        let said = format!(
            "{} libraries are proved with no axiom of their own, {} crates were in an earlier run \
             of rt's; all that is linked was looked at of: {}; functions of C's are taken at their \
             word by the programs: {}",
            self.libraries.len(),
            self.kept,
            in_words(&self.shipped),
            in_words(&programs)
        );
        unless(self.problems, said)
    }
}

fn in_words(names: &[String]) -> String {
    match names {
        [] => "none".into(),
        _ => names.join(", "),
    }
}

#[cfg(test)]
mod tests {
    use super::*;
    use crate::testing::{found, Scratch};

    const SAID: &str = "== low\nfn a: proved\nlogic=proved functions=14 sum=ab\nrt: low proved\n\
        == main: its tests\nlogic=proved functions=3 axioms=12\nrt: main: its tests are proved\n\
        == main\nlogic=proved functions=1 axioms=9 main=Wait\nrt: main proved\n\
        rt: old is kept: an earlier run on this machine proved the same files\n";
    const LOG: &str = "build/module/edge.said";

    fn right() -> Scratch {
        Scratch::new(&[
            ("crates.txt", "# words\nlow:\nold:\nedge staticlib: low\nmain: low\n"),
            ("crates/main/src/main.rt", ""),
            ("said", &format!("{SAID}rt: edge is kept: it is\n")),
            (LOG, "logic=not-proved\nlogic=proved functions=2 sum=ab\n"),
        ])
    }

    #[test]
    fn libraries_without_an_axiom_pass_and_what_programs_take_is_told() {
        let said = check(&right().tree(), &["said", LOG]).unwrap();
        assert!(said.starts_with("2 libraries are proved with no axiom of their own, 2 crates"));
        assert!(said.ends_with(
            "of: edge; functions of C's are taken at their word by the programs: main 9"
        ));
    }

    #[test]
    fn a_library_that_assumes_something_is_found() {
        for assumed in ["axioms=1", "foreign=2"] {
            let tree = right();
            tree.alter("said", "sum=ab", assumed);
            tree.alter(LOG, "sum=ab", assumed);
            let due = [
                format!("said:3: low assumes something: logic=proved functions=14 {assumed}"),
                format!("{LOG}:2: edge assumes something: logic=proved functions=2 {assumed}"),
            ];
            assert_eq!(found(check(&tree.tree(), &["said", LOG])), due);
        }
    }

    #[test]
    fn a_program_may_declare_no_function_of_c() {
        let tree = right();
        tree.alter("said", "axioms=9", "axioms=9 foreign=1");
        assert_eq!(found(check(&tree.tree(), &["said"])).len(), 1);
    }

    #[test]
    fn what_is_not_proved_or_not_told_of_is_found() {
        let tree = right();
        tree.alter("said", "logic=proved functions=1 ", "logic=unproved ");
        tree.alter("said", "== low\n", "== low: its tests\n");
        tree.put(LOG, "error\n");
        let due = [
            "said: rt has not said that low is proved",
            "said:9: main is not proved: logic=unproved axioms=9 main=Wait",
            "build/module/edge.said:0: edge is not proved: ",
        ];
        assert_eq!(found(check(&tree.tree(), &["said", LOG])), due);
    }

    #[test]
    fn other_words_are_misuse() {
        assert_eq!(check(&right().tree(), &[]), Err(Wrong::Usage));
        assert_eq!(check(&right().tree(), &["said", "VERSION"]), Err(Wrong::Usage));
    }
}
