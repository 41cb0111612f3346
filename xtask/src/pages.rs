//! Holds the pages to what makes them readable: README has at most 150 lines, no sentence has above
//! 40 words, those of a page have at most 25 on average, and a line of prose ends at 100 columns.
//! The comments of the header are a page, too, and so are the manual pages.

use crate::prose::{of_header, of_manual, of_markdown, Prose, Sentence};
use crate::report::{at, no_words, unless, Verdict};
use crate::scan::numbered;
use crate::tree::Tree;

const README: &str = "README.md";
const HEADER: &str = "include/trawlbeacon.h";
const OTHERS: [&str; 3] = ["CHANGELOG.md", "CONTRIBUTING.md", "SECURITY.md"];
const MANUALS: &str = "man/";

const MOST_LINES: usize = 150;
const MOST_WORDS: usize = 40;
const MOST_ON_AVERAGE: usize = 25;
const MOST_COLUMNS: usize = 100;

pub fn check(tree: &Tree, words: &[&str]) -> Verdict {
    no_words(words)?;
    let mut problems = Vec::new();
    let mut held = Vec::new();
    for page in pages(tree) {
        let text = tree.read(&page)?;
        let prose = prose_of(&page, &text);
        if page == README && text.lines().count() > MOST_LINES {
            let found = format!("has {} lines, above {MOST_LINES}", text.lines().count());
            problems.push(format!("{page}: {found}"));
        }
        problems.extend(long_lines(&page, &text, &prose));
        problems.extend(winding(&page, &prose.sentences));
        held.extend(prose.sentences);
    }
    let longest = held.iter().map(|sentence| sentence.words).max().unwrap_or(0);
    let said = format!(
        "{} sentences, of {} words on average and {longest} at the most",
        held.len(),
        tenths(total(&held), held.len())
    );
    unless(problems, said)
}

fn prose_of(page: &str, text: &str) -> Prose {
    match page {
        HEADER => of_header(text),
        _ if page.starts_with(MANUALS) => of_manual(text),
        _ => of_markdown(text),
    }
}

/// README, the pages beside it and those of docs, but not the notes in a folder below, the manual
/// pages, and the header.
fn pages(tree: &Tree) -> Vec<String> {
    let in_docs = |file: &String| {
        let name = file.strip_prefix("docs/").and_then(|name| name.strip_suffix(".md"));
        name.map_or(false, |name| !name.contains('/'))
    };
    let mut pages = vec![String::from(README)];
    pages.extend(OTHERS.iter().map(|page| page.to_string()));
    let files = tree.files();
    pages.extend(files.iter().filter(|file| in_docs(file)).cloned());
    pages.extend(files.into_iter().filter(|file| file.starts_with(MANUALS)));
    pages.push(HEADER.into());
    pages
}

/// The lines of prose that are too long.
fn long_lines(page: &str, text: &str, prose: &Prose) -> Vec<String> {
    let long = numbered(text).filter(|(_, line)| line.chars().count() > MOST_COLUMNS);
    let long = long.filter(|(number, _)| prose.lines.contains(number));
    long.map(|(number, _)| at(page, number, "goes past 100 columns")).collect()
}

fn winding(page: &str, sentences: &[Sentence]) -> Vec<String> {
    let long = sentences.iter().filter(|sentence| sentence.words > MOST_WORDS);
    let mut problems: Vec<String> = long
        .map(|Sentence { line, words, start }| {
            at(page, *line, &format!("a sentence of {words} words, above {MOST_WORDS}: {start} .."))
        })
        .collect();
    if total(sentences) > MOST_ON_AVERAGE * sentences.len() {
        let average = tenths(total(sentences), sentences.len());
        problems.push(format!(
            "{page}: its sentences have {average} words on average, above {MOST_ON_AVERAGE}"
        ));
    }
    if sentences.is_empty() {
        problems.push(format!("{page}: has no sentence"));
    }
    problems
}

fn total(sentences: &[Sentence]) -> usize {
    sentences.iter().map(|sentence| sentence.words).sum()
}

/// A quotient with one digit behind the point, rounded down.
fn tenths(sum: usize, count: usize) -> String {
    let tenths = 10 * sum / count.max(1);
    format!("{}.{}", tenths / 10, tenths % 10)
}

#[cfg(test)]
mod tests {
    use super::*;
    use crate::testing::{found, Scratch};

    fn right() -> Scratch {
        Scratch::new(&[
            (README, "# Name\n\nIt does this. It does that.\n"),
            (OTHERS[0], "One change.\n"),
            (OTHERS[1], "One step.\n"),
            (OTHERS[2], "One promise.\n"),
            ("docs/GUIDE.md", "One two three four.\n"),
            ("docs/landings/01.md", &"word ".repeat(50)),
            ("man/name.1", ".TH NAME 1\nOne two three four.\n"),
            (HEADER, "/* One two. */\nint x;\n"),
        ])
    }

    #[test]
    fn pages_that_can_be_read_pass() {
        let said = check(&right().tree(), &[]).unwrap();
        assert_eq!(said, "8 sentences, of 2.7 words on average and 4 at the most");
    }

    #[test]
    fn a_readme_of_151_lines_is_found() {
        let scratch = right();
        scratch.put(README, &"Words.\n".repeat(151));
        assert_eq!(found(check(&scratch.tree(), &[])), ["README.md: has 151 lines, above 150"]);
        scratch.put(README, &"Words.\n".repeat(150));
        assert!(check(&scratch.tree(), &[]).is_ok());
    }

    #[test]
    fn a_sentence_of_41_words_is_found_in_a_page_and_in_the_header() {
        let scratch = right();
        let long = format!("{}end.", "one two\n".repeat(20));
        scratch.put("docs/GUIDE.md", &format!("A b.\n\n{long} {}", "C.\n".repeat(40)));
        scratch.put(HEADER, &format!("/* {long} {}*/\n", "C.\n".repeat(40)));
        let due = "a sentence of 41 words, above 40: one two one two one two one ..";
        let due = [format!("docs/GUIDE.md:3: {due}"), format!("{HEADER}:1: {due}")];
        assert_eq!(found(check(&scratch.tree(), &[])), due);
    }

    #[test]
    fn a_sentence_of_41_words_is_found_in_a_manual() {
        let scratch = right();
        let long = format!(".SH A\n{}end.\n", ".B one\ntwo\n".repeat(20));
        scratch.put("man/name.1", &(long + &"C.\n".repeat(40)));
        let due = "man/name.1:2: a sentence of 41 words, above 40: one two one two one two one ..";
        assert_eq!(found(check(&scratch.tree(), &[])), [due]);
    }

    #[test]
    fn an_average_above_25_is_found() {
        let scratch = right();
        let sentence = |words: usize| format!("{}end.\n", "one\n".repeat(words - 1));
        scratch.put("docs/GUIDE.md", &(sentence(25) + &sentence(26)));
        let due = "docs/GUIDE.md: its sentences have 25.5 words on average, above 25";
        assert_eq!(found(check(&scratch.tree(), &[])), [due]);
        scratch.put("docs/GUIDE.md", &(sentence(25) + &sentence(25)));
        assert!(check(&scratch.tree(), &[]).is_ok());
    }

    #[test]
    fn a_line_past_100_columns_is_found_but_in_tables_and_code() {
        let scratch = right();
        let long = "é".repeat(101);
        scratch.put("docs/GUIDE.md", &format!("| {long} |\n\n    {long}\n\nWords.\n{long}\n"));
        assert_eq!(found(check(&scratch.tree(), &[])), ["docs/GUIDE.md:6: goes past 100 columns"]);
    }

    #[test]
    fn a_page_that_says_nothing_or_is_missing_is_found() {
        let scratch = right();
        scratch.put("docs/GUIDE.md", "# Heading\n");
        assert_eq!(found(check(&scratch.tree(), &[])), ["docs/GUIDE.md: has no sentence"]);
        scratch.remove(README);
        assert!(found(check(&scratch.tree(), &[]))[0].starts_with("README.md cannot be read"));
    }
}
