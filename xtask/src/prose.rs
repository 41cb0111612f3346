//! The sentences of a page in Markdown, of a manual page, and of the comments of a header in C.
//!
//! A sentence ends at a full stop, a question mark or an exclamation mark before a blank, and at the
//! end of its paragraph or list item. Code blocks, tables, headings, pictures and comments of HTML
//! have none. A word is what blanks divide, where it has a letter or a digit.

use crate::scan::numbered;
use std::collections::BTreeSet;

/// What is prose of a page: its sentences, and the numbers of its lines.
pub struct Prose {
    pub sentences: Vec<Sentence>,
    pub lines: BTreeSet<usize>,
}

pub struct Sentence {
    pub line: usize,
    pub words: usize,
    /// Its first words, by which a reader finds it.
    pub start: String,
}

/// A word with the number of its line.
type Word<'a> = (usize, &'a str);

/// The paragraphs of a page, each as its words.
#[derive(Default)]
struct Paragraphs<'a> {
    ended: Vec<Vec<Word<'a>>>,
    open: Vec<Word<'a>>,
}

impl<'a> Paragraphs<'a> {
    fn add(&mut self, number: usize, text: &'a str) {
        self.open.extend(text.split_whitespace().map(|word| (number, word)));
    }

    fn end(&mut self) {
        if !self.open.is_empty() {
            self.ended.push(std::mem::take(&mut self.open));
        }
    }

    fn prose(mut self) -> Prose {
        self.end();
        let lines = self.ended.iter().flatten().map(|(number, _)| *number).collect();
        let sentences = self.ended.iter().flat_map(|words| sentences(words)).collect();
        Prose { sentences, lines }
    }
}

pub fn of_markdown(text: &str) -> Prose {
    let mut found = Paragraphs::default();
    let mut fenced = false;
    for (number, line) in numbered(text) {
        if line.trim_start().starts_with("```") {
            fenced = !fenced;
            found.end();
        } else if !fenced {
            markdown_line(&mut found, number, line);
        }
    }
    found.prose()
}

fn markdown_line<'a>(found: &mut Paragraphs<'a>, number: usize, line: &'a str) {
    // Such a line is code where it does not go on with a paragraph.
    let is_code = line.starts_with("    ") && found.open.is_empty();
    let line = line.trim();
    if line.is_empty() || line.starts_with(['|', '#']) || line.starts_with("![") {
        found.end();
        return;
    }
    if is_code {
        return;
    }
    if line.starts_with("<!--") {
        found.end();
    }
    let text = without_comment(line);
    match behind_mark(text) {
        Some(rest) => {
            found.end();
            found.add(number, rest);
        }
        None => found.add(number, text),
    }
}

fn without_comment(line: &str) -> &str {
    match line.strip_prefix("<!--") {
        Some(rest) => rest.split_once("-->").map_or("", |(_, behind)| behind.trim_start()),
        None => line,
    }
}

/// What stands behind the mark of a list item: `- `, `* ` or a number, a full stop and a blank.
fn behind_mark(line: &str) -> Option<&str> {
    let bullet = line.strip_prefix("- ").or_else(|| line.strip_prefix("* "));
    bullet.or_else(|| {
        let (number, rest) = line.split_once(". ")?;
        let is_number = !number.is_empty() && number.chars().all(|c| c.is_ascii_digit());
        is_number.then_some(rest)
    })
}

/// The macros of a manual page that set words in another font, and leave them in their sentence.
const FONTS: [&str; 8] = ["B", "I", "BI", "BR", "IB", "IR", "RB", "RI"];

/// A manual page: every other macro ends a paragraph, and its words are none of a sentence.
pub fn of_manual(text: &str) -> Prose {
    let mut found = Paragraphs::default();
    for (number, line) in numbered(text) {
        let Some(call) = line.strip_prefix('.') else {
            found.add(number, line);
            continue;
        };
        match call.split_once(' ') {
            Some((name, words)) if FONTS.contains(&name) => found.add(number, words),
            _ => found.end(),
        }
    }
    found.prose()
}

/// The comments of a header, from `/*` to `*/`. Each is a paragraph of its own, and so is each part
/// of it behind an empty line or a mark of a list. Lines that are set in by four blanks or more and
/// go on with no paragraph are code, as in Markdown.
pub fn of_header(text: &str) -> Prose {
    let mut found = Paragraphs::default();
    let mut inside = false;
    for (number, line) in numbered(text) {
        let line = line.trim_start();
        let opened = line.strip_prefix("/*");
        if opened.is_some() {
            found.end();
        }
        if opened.is_none() && !inside {
            continue;
        }
        let (text, closed) = closed(opened.or_else(|| line.strip_prefix('*')).unwrap_or(line));
        inside = !closed;
        markdown_line(&mut found, number, text.strip_prefix(' ').unwrap_or(text));
        if closed {
            found.end();
        }
    }
    found.prose()
}

/// The text of a line of a comment, and whether the comment ends in it. The `/` alone is what is
/// left of a last line `*/`.
fn closed(text: &str) -> (&str, bool) {
    match text.split_once("*/") {
        Some((before, _)) => (before, true),
        None if text == "/" => ("", true),
        None => (text, false),
    }
}

fn sentences(words: &[Word]) -> Vec<Sentence> {
    let ends = words.iter().enumerate().filter(|(_, (_, word))| is_end(word));
    let mut bounds: Vec<usize> = ends.map(|(index, _)| index + 1).collect();
    bounds.push(words.len());
    let mut found = Vec::new();
    let mut from = 0;
    for to in bounds {
        let part = &words[from..to];
        let count = part.iter().filter(|(_, word)| is_word(word)).count();
        if count > 0 {
            found.push(Sentence { line: part[0].0, words: count, start: start(part) });
        }
        from = to;
    }
    found
}

fn is_word(word: &str) -> bool {
    word.chars().any(char::is_alphanumeric)
}

/// Whether a sentence ends with this word. Two full stops stand for something left out.
fn is_end(word: &str) -> bool {
    let word = word.trim_end_matches([')', ']', '*', '_', '"', '\'', '`']);
    word.ends_with(['.', '?', '!']) && !word.ends_with("..")
}

fn start(words: &[Word]) -> String {
    let first: Vec<&str> = words.iter().take(7).map(|(_, word)| *word).collect();
    first.join(" ")
}

#[cfg(test)]
mod tests {
    use super::*;

    fn counts(prose: &Prose) -> Vec<(usize, usize)> {
        prose.sentences.iter().map(|sentence| (sentence.line, sentence.words)).collect()
    }

    #[test]
    fn sentences_end_at_marks_and_with_their_paragraph() {
        let text = "One two. Three (four.) **Five!** Six?\nseven\n\neight 0.9 tb_.. ten:\n";
        let due = [(1, 2), (1, 2), (1, 1), (1, 1), (2, 1), (4, 4)];
        assert_eq!(counts(&of_markdown(text)), due);
        assert_eq!(of_markdown("A b c d e f g h i.").sentences[0].start, "A b c d e f g");
    }

    #[test]
    fn items_are_sentences_of_their_own_and_go_on_in_lines_set_in() {
        let text = "- one\n- two\n  three\n  1. four\n     five\n* six - seven\n";
        assert_eq!(counts(&of_markdown(text)), [(1, 1), (2, 2), (4, 2), (6, 2)]);
    }

    #[test]
    fn code_tables_headings_pictures_and_comments_have_none() {
        let text = "# One\n\n    code\n\n```c\ncode\n```\n| a | b |\n![words here](x.svg)\n\
            <!-- bench: x -->\ntwo three\n<!-- bench: y --> four\n";
        assert_eq!(counts(&of_markdown(text)), [(11, 2), (12, 1)]);
        assert_eq!(of_markdown(text).lines, BTreeSet::from([11, 12]));
    }

    #[test]
    fn a_manual_has_its_words_in_fonts_and_ends_at_other_macros() {
        let text = ".TH NAME 1\n.SH NAME\nname \\- does\n.TP\n.BI \\-\\-flag \" FILE\"\nReads\n.IR FILE .\n\
            Then\n.B more\nwords.\n.\\\" a comment\n";
        assert_eq!(counts(&of_manual(text)), [(3, 2), (5, 4), (8, 3)]);
    }

    #[test]
    fn comments_of_a_header_are_read_and_code_is_not() {
        let text = "/* One two.\n * Three\n *\n *     code here\n *\n * - four\n *   five\n */\n\
            int not_this(void);\n/* Six. */\n    /* seven */ int x;\n";
        let due = [(1, 2), (2, 1), (6, 2), (10, 1), (11, 1)];
        assert_eq!(counts(&of_header(text)), due);
    }
}
