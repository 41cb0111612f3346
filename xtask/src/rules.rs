//! Holds docs/RULES.md, which says what the customer's two papers ask, to what the tree cites of
//! them: each part of the first that is cited by its name, each request by its number, each code of
//! the table, each example. It says nothing of whether the words are right.

use crate::codes::table;
use crate::markdown::{columns, section};
use crate::report::{at, no_words, unless, Checked, Verdict};
use crate::scan::{digits, numbered, numbers};
use crate::tree::Tree;
use std::collections::BTreeMap;
use std::fs;

const PAGE: &str = "docs/RULES.md";
const LEADING: [&str; 3] = ["README.md", "docs/STATEMENTS.md", "docs/DECISIONS.md"];
const EXAMPLES: u64 = 14;

/// What is cited, each with the first place that cites it.
#[derive(Default)]
struct Cited {
    parts: BTreeMap<String, (String, usize)>,
    requests: BTreeMap<u64, (String, usize)>,
}

pub fn check(tree: &Tree, words: &[&str]) -> Verdict {
    no_words(words)?;
    let page = tree.read(PAGE)?;
    let cited = cited(tree);
    let table = table::file(tree)?;
    let codes = table::read(&table, &tree.read(&table)?)?;
    let mut problems = lacking(&page, &cited);
    let rows = rows(&page, "Refusal codes");
    let codeless = codes.iter().filter(|code| !rows.contains(&u64::from(code.number)));
    problems.extend(codeless.map(|code| format!("{PAGE}: lacks code {}", code.number)));
    let examples = self::rows(&page, "Examples");
    let missing = (1..=EXAMPLES).filter(|number| !examples.contains(number));
    problems.extend(missing.map(|number| format!("{PAGE}: lacks example {number}")));
    problems.extend(not_leading(tree)?);
    let (parts, requests) = (cited.parts.len(), cited.requests.len());
    let held =
        format!("{parts} parts of document 01, {requests} requests and {} codes", codes.len());
    unless(problems, format!("{held} that are cited stand in {PAGE}"))
}

/// All that is cited anywhere but on the page itself. What is no text is passed over.
fn cited(tree: &Tree) -> Cited {
    let mut cited = Cited::default();
    for file in tree.files() {
        let bytes = fs::read(tree.path(&file)).unwrap_or_default();
        if file == PAGE || bytes.contains(&0) {
            continue;
        }
        for (number, line) in numbered(&String::from_utf8_lossy(&bytes)) {
            let place = || (file.clone(), number);
            for part in parts_in(line) {
                cited.parts.entry(part.into()).or_insert_with(place);
            }
            for request in requests_in(line) {
                cited.requests.entry(request).or_insert_with(place);
            }
        }
    }
    cited
}

/// The parts of document 01 that a line cites, by their names in quotes.
fn parts_in(line: &str) -> Vec<&str> {
    let behind = line.split("ocument 01, \"").zip(line.split("ocument 01, \"").skip(1));
    let cited = behind.filter(|(before, _)| before.ends_with(['D', 'd']));
    cited
        .filter_map(|(_, rest)| rest.split_once('"'))
        .map(|(name, _)| name)
        .filter(|name| !name.is_empty())
        .collect()
}

/// The requests that a line cites: a P and a number from 1 to 19, as a word.
fn requests_in(line: &str) -> Vec<u64> {
    let in_word = |c: char| c.is_alphanumeric() || c == '_';
    let words = line.split(|c| !in_word(c)).filter_map(|word| word.strip_prefix('P'));
    let plain = words.filter(|rest| digits(rest) == *rest && !rest.starts_with('0'));
    plain.filter_map(|rest| rest.parse().ok()).filter(|number| *number < 20).collect()
}

fn lacking(page: &str, cited: &Cited) -> Vec<String> {
    let heads = |start: &str| page.lines().any(|line| line.starts_with(start));
    let has = |part: &str| {
        let heading = format!("## {part}");
        page.lines().any(|line| line == heading) || page.contains(&format!("**{part}**"))
    };
    let parts = cited.parts.iter().filter(|(part, _)| !has(part)).map(|(part, (file, line))| {
        at(file, *line, &format!("{PAGE} lacks the part \"{part}\" of document 01"))
    });
    let requests = cited.requests.iter().filter(|(number, _)| !heads(&format!("## P{number}: ")));
    let requests = requests
        .map(|(number, (file, line))| at(file, *line, &format!("{PAGE} lacks request P{number}")));
    parts.chain(requests).collect()
}

/// The numbers in the first column of the table below a heading.
fn rows(page: &str, heading: &str) -> Vec<u64> {
    let lines = section(page, heading).into_iter().map(|(_, line)| line);
    let firsts = lines.filter_map(|line| columns(line).first().copied());
    firsts.filter(|first| !digits(first).is_empty()).flat_map(numbers).collect()
}

fn not_leading(tree: &Tree) -> Checked<Vec<String>> {
    let mut problems = Vec::new();
    for file in LEADING {
        if !tree.read(file)?.contains("RULES.md)") {
            problems.push(format!("{file}: cites document 01, and does not lead to {PAGE}"));
        }
    }
    Ok(problems)
}

#[cfg(test)]
mod tests {
    use super::*;
    use crate::testing::{found, Scratch};

    /// Citations are put together here, since this file is one that is looked at, too.
    fn citing(part: &str, request: u64) -> String {
        format!("words\nsee {} 01, \"{part}\", and (P{request})\n", "document")
    }

    fn right() -> Scratch {
        let mut page =
            String::from("## Windows\n\n**Links** are\n\n## P3: more\n\n## Refusal codes\n\n");
        page += "| code | words |\n|---|---|\n| 1 | long |\n\n";
        page += "## Examples\n\n| n | words |\n|---|---|\n";
        for number in 1..=EXAMPLES {
            page += &format!("| {number} | words |\n");
        }
        let link = "[rules](docs/RULES.md)";
        Scratch::new(&[
            (PAGE, &page),
            ("crates/a/src/codes.rt", "// long\npub const LONG: u8 = 1;\n"),
            ("crates/a/src/lib.rt", &citing("Windows", 3)),
            ("crates/a/src/more.rt", &citing("Links", 3)),
            (LEADING[0], link),
            (LEADING[1], link),
            (LEADING[2], link),
        ])
    }

    #[test]
    fn a_page_with_all_that_is_cited_passes() {
        let said = check(&right().tree(), &[]).unwrap();
        let due =
            "2 parts of document 01, 1 requests and 1 codes that are cited stand in docs/RULES.md";
        assert_eq!(said, due);
    }

    #[test]
    fn a_part_and_a_request_that_it_lacks_are_found_where_they_are_cited() {
        let tree = right();
        tree.put("hosts/x.c", &citing("Spans", 14));
        let due = [
            "hosts/x.c:2: docs/RULES.md lacks the part \"Spans\" of document 01",
            "hosts/x.c:2: docs/RULES.md lacks request P14",
        ];
        assert_eq!(found(check(&tree.tree(), &[])), due);
    }

    #[test]
    fn a_code_and_an_example_that_it_lacks_are_found() {
        let tree = right();
        tree.alter(PAGE, "| 1 | long |\n", "");
        tree.alter(PAGE, "| 9 | words |\n", "");
        let due = ["docs/RULES.md: lacks code 1", "docs/RULES.md: lacks example 9"];
        assert_eq!(found(check(&tree.tree(), &[])), due);
    }

    #[test]
    fn a_document_that_does_not_lead_to_it_is_found() {
        let tree = right();
        tree.put("README.md", "words");
        let due = "README.md: cites document 01, and does not lead to docs/RULES.md";
        assert_eq!(found(check(&tree.tree(), &[])), [due]);
    }

    #[test]
    fn requests_are_words_of_their_own() {
        let line = ["P", "1 (P", "12) IP", "3 P", "20 P", "0 xP", "4 P", "5x P", ""].join("");
        assert_eq!(requests_in(&line), [1, 12]);
    }

    #[test]
    fn what_is_no_text_or_is_made_cites_nothing() {
        let tree = right();
        tree.put("build/x", &citing("Spans", 9));
        tree.put("data", &format!("\0{}", citing("Spans", 9)));
        assert!(check(&tree.tree(), &[]).is_ok());
    }
}
