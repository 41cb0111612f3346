//! What the header says, read from its text: which functions the library exports, and numbers.

use std::collections::BTreeSet;
use std::fs;
use std::path::Path;

/// The header without its comments.
pub fn text() -> String {
    let path = Path::new(env!("CARGO_MANIFEST_DIR")).join("../../include/trawlbeacon.h");
    let whole = fs::read_to_string(&path).unwrap_or_else(|error| panic!("the header: {error}"));
    let mut parts = whole.split("/*");
    let first = parts.next().unwrap_or_default().to_string();
    parts.fold(first, |code, part| code + part.split_once("*/").map_or("", |(_, rest)| rest))
}

fn in_a_name(letter: char) -> bool {
    letter.is_ascii_alphanumeric() || letter == '_'
}

/// The functions that are named in this code, declared, defined or called.
fn functions(code: &str) -> BTreeSet<String> {
    let before = |(at, _): (usize, &str)| {
        let name = code[..at].trim_end();
        name[name.rfind(|letter| !in_a_name(letter)).map_or(0, |last| last + 1)..].to_string()
    };
    code.match_indices('(').map(before).filter(|name| name.starts_with("tb_")).collect()
}

/// The exports: every function that is named, but those that the header itself has the code of.
pub fn exports() -> BTreeSet<String> {
    let text = text();
    let own = |part: &str| functions(part.split_once('{').map_or(part, |(head, _)| head));
    let inline: BTreeSet<String> = text.split("static inline").skip(1).flat_map(own).collect();
    functions(&text).difference(&inline).cloned().collect()
}

/// The number that a name is defined as.
pub fn number(name: &str) -> usize {
    let text = text();
    let line = text.lines().find(|line| line.starts_with(&format!("#define {name} ")));
    let number = line.and_then(|line| line.split_whitespace().nth(2)?.parse().ok());
    number.unwrap_or_else(|| panic!("the header defines no number {name}"))
}
