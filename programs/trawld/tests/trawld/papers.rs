//! The help, the manual page and the completions have the same flags, and the version is one.

use crate::folder::Folder;
use std::collections::BTreeSet;

/// The words that begin with two dashes.
fn flags(text: &str) -> BTreeSet<String> {
    let text = text.replace("\\-", "-");
    let inside = |letter: char| letter.is_ascii_lowercase() || letter == '-';
    let words = text.split(|letter| !inside(letter)).filter(|word| word.len() > 2);
    words.filter(|word| word.starts_with("--")).map(str::to_string).collect()
}

#[test]
fn all_papers_have_the_same_flags() {
    let help = Folder::new().run(&["--help"]);
    let due = flags(&String::from_utf8_lossy(&help.stdout));
    assert!(due.len() > 20);
    assert_eq!(flags(include_str!("../../../../man/trawld.8")), due);
    assert_eq!(flags(include_str!("../../completion/trawld.bash")), due);
    assert_eq!(flags(include_str!("../../completion/_trawld")), due);
}

#[test]
fn the_version_is_one() {
    let version = include_str!("../../../../VERSION").trim();
    let head = format!("\"Trawlbeacon {version}\"");
    assert!(include_str!("../../../../man/trawld.8").contains(&head));
    assert_eq!(env!("CARGO_PKG_VERSION"), version);
}

/// Lines of help fit a terminal of a hundred columns.
#[test]
fn help_is_not_wide() {
    assert!(include_str!("../../src/help.txt").lines().all(|line| line.chars().count() <= 100));
}
