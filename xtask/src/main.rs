//! Holds the documents and tables of this repository to what they speak of. `cargo xtask` lists the
//! checks; `./test` runs all of them.
//!
//! A check says all that is wrong at once, on standard error, a line each with its file and line,
//! and then the status is 1. Where nothing is, it says so in one line.

mod apply;
mod assumptions;
mod codes;
mod counts;
mod edits;
mod excerpts;
mod links;
mod markdown;
mod pages;
mod poke;
mod prose;
mod refusals;
mod report;
mod rules;
mod scan;
mod statements;
#[cfg(test)]
mod testing;
mod tree;
mod versions;
mod whole;

use report::{Verdict, Wrong};
use std::process::ExitCode;
use tree::Tree;

/// A subcommand: its name, the words behind it, what it does, and the function that does it.
struct Check {
    name: &'static str,
    words: &'static str,
    about: &'static str,
    run: fn(&Tree, &[&str]) -> Verdict,
}

const fn check(
    name: &'static str,
    words: &'static str,
    run: fn(&Tree, &[&str]) -> Verdict,
    about: &'static str,
) -> Check {
    Check { name, words, about, run }
}

#[rustfmt::skip] // a table
const CHECKS: [Check; 13] = [
    check("statements", "", statements::check,
        "docs/STATEMENTS.md has each wrong program and each theorem of uniqueness"),
    check("codes", "[--write]", codes::check,
        "the header and the hosts have the table of refusal codes"),
    check("edits", "", edits::check,
        "the wrong programs fit the files that they change"),
    check("versions", "[--write]", versions::check,
        "the version is VERSION's wherever it stands"),
    check("links", "[FOLDER]", links::check,
        "relative links of the documents, or of all below FOLDER, lead somewhere"),
    check("pages", "", pages::check,
        "README is short, and the sentences of all pages and of the header are"),
    check("excerpts", "", excerpts::check,
        "programs in README and docs/GUIDE.md are parts of the files that they name"),
    check("rules", "", rules::check,
        "docs/RULES.md has what is cited of the customer's papers"),
    check("refusals", "[--write] SAID", refusals::check,
        "the wrong programs are refused as tools/refusals.txt has it; SAID is what rt said"),
    check("assumptions", "SAID LOG...", assumptions::check,
        "no library assumes anything: SAID is what rt ci said, and LOGs what the kit did"),
    check("counts", "FILE...", counts::check,
        "the table of docs/PROVED.md has what the tests counted; they said it in FILEs"),
    check("apply", "EDIT FOLDER", apply::check,
        "makes the changes of a file of wrong programs in a copy of its crate"),
    check("poke", "FILE OFFSET BYTE", poke::check,
        "puts another byte into a file"),
];

fn usage() -> String {
    let mut text = String::from("usage: cargo xtask CHECK [WORD...]\n\n");
    for check in &CHECKS {
        let called = format!("{} {}", check.name, check.words);
        text += &format!("    {:<26}{}\n", called.trim_end(), check.about);
    }
    text
}

/// What a call ends with: its status, and what goes to standard output and to standard error.
struct Ended {
    status: u8,
    out: String,
    err: String,
}

fn call(tree: Option<&Tree>, words: &[&str]) -> Ended {
    let ended = |status, out: String, err: String| Ended { status, out, err };
    let Some((name, rest)) = words.split_first() else {
        return ended(2, String::new(), usage());
    };
    if ["--help", "-h"].contains(name) {
        return ended(0, usage(), String::new());
    }
    let Some(check) = CHECKS.iter().find(|check| check.name == *name) else {
        return ended(2, String::new(), format!("xtask: there is no check {name:?}\n{}", usage()));
    };
    let Some(tree) = tree else {
        return ended(1, String::new(), "xtask: this is no folder of the repository\n".into());
    };
    match (check.run)(tree, rest) {
        Ok(said) => ended(0, format!("{name}: {said}\n"), String::new()),
        Err(Wrong::Usage) => {
            ended(2, String::new(), format!("usage: cargo xtask {name} {}\n", check.words))
        }
        Err(Wrong::Found(problems)) => {
            let lines = problems.iter().map(|problem| format!("{name}: {problem}\n"));
            ended(1, String::new(), lines.collect())
        }
    }
}

fn main() -> ExitCode {
    let words: Vec<String> = std::env::args().skip(1).collect();
    let words: Vec<&str> = words.iter().map(String::as_str).collect();
    let tree = std::env::current_dir().ok().and_then(|folder| Tree::above(&folder));
    let ended = call(tree.as_ref(), &words);
    print!("{}", ended.out);
    eprint!("{}", ended.err);
    ExitCode::from(ended.status)
}

#[cfg(test)]
mod tests {
    use super::*;
    use crate::testing::Scratch;

    #[test]
    fn each_check_is_found_by_its_name_and_listed() {
        let text = usage();
        for check in &CHECKS {
            assert!(text.contains(&format!("    {}", check.name)));
        }
        assert_eq!(call(None, &["--help"]).status, 0);
        assert_eq!(call(None, &["--help"]).out, text);
    }

    #[test]
    fn wrong_words_are_status_2_and_say_how_it_is_called() {
        let scratch = Scratch::new(&[]);
        let tree = scratch.tree();
        for words in [&[][..], &["nonsense"], &["statements", "now"], &["counts"], &["poke", "x"]] {
            let ended = call(Some(&tree), words);
            assert_eq!(ended.status, 2, "{words:?}");
            assert!(ended.err.contains("usage: cargo xtask"), "{words:?}");
            assert!(ended.out.is_empty());
        }
    }

    #[test]
    fn what_is_wrong_is_status_1_with_the_name_of_the_check_before_each_line() {
        let scratch = Scratch::new(&[("VERSION", "1.2\n")]);
        let ended = call(Some(&scratch.tree()), &["versions"]);
        assert_eq!(ended.status, 1);
        assert!(ended.err.starts_with("versions: VERSION:1: "), "{}", ended.err);
        assert_eq!(call(None, &["versions"]).status, 1);
    }
}
