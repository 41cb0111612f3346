//! What the checks read in a Markdown document. Each thing comes with its line.

use crate::scan::numbered;

/// The names in backquotes, which have no blank in them.
pub fn backquoted(text: &str) -> Vec<(usize, &str)> {
    each_line(text, |line| between(line, "`", "`", &['`', ' ']))
}

/// The targets of the links. The words of a link may go over lines, but never its target.
pub fn targets(text: &str) -> Vec<(usize, &str)> {
    each_line(text, |line| between(line, "](", ")", &['(', ')', ' ']))
}

/// The columns of a row of a table, without the blanks around them; none where it is no row.
pub fn columns(line: &str) -> Vec<&str> {
    match line.strip_prefix('|').and_then(|rest| rest.trim_end().strip_suffix('|')) {
        Some(row) => row.split('|').map(str::trim).collect(),
        None => Vec::new(),
    }
}

/// The lines below a heading of the second order, up to the next one.
pub fn section<'a>(text: &'a str, heading: &str) -> Vec<(usize, &'a str)> {
    let mut inside = false;
    let mut lines = Vec::new();
    for (number, line) in numbered(text) {
        match line.strip_prefix("## ") {
            Some(words) => inside = words == heading,
            None if inside => lines.push((number, line)),
            None => {}
        }
    }
    lines
}

fn each_line<'a>(text: &'a str, find: fn(&'a str) -> Vec<&'a str>) -> Vec<(usize, &'a str)> {
    let found = |(number, line)| find(line).into_iter().map(move |one| (number, one));
    numbered(text).flat_map(found).collect()
}

/// What stands between an opening and the closing that comes next, with something in between and
/// none of these characters.
fn between<'a>(line: &'a str, open: &str, close: &str, without: &[char]) -> Vec<&'a str> {
    let mut found = Vec::new();
    let mut rest = line;
    while let Some(start) = rest.find(open) {
        rest = &rest[start + open.len()..];
        let end = rest.find(without).unwrap_or(rest.len());
        if end > 0 && rest[end..].starts_with(close) {
            found.push(&rest[..end]);
            rest = &rest[end + close.len()..];
        }
    }
    found
}

#[cfg(test)]
mod tests {
    use super::*;

    #[test]
    fn names_in_backquotes_have_no_blank() {
        let text = "`one` and `a b` and `two`\n`` `three`";
        assert_eq!(backquoted(text), [(1, "one"), (1, "two"), (2, "three")]);
    }

    #[test]
    fn targets_are_found_where_the_words_go_over_lines() {
        let text = "[a](b.md), [c\nd](../e#f) and (g) and [h](i j)";
        assert_eq!(targets(text), [(1, "b.md"), (2, "../e#f")]);
    }

    #[test]
    fn a_row_has_columns_and_words_have_none() {
        assert_eq!(columns("| a | b c ||"), ["a", "b c", ""]);
        assert!(columns("a | b").is_empty());
    }

    #[test]
    fn a_section_ends_at_the_next_heading() {
        assert_eq!(section("## A\none\n### B\n## C\ntwo\n", "A"), [(2, "one"), (3, "### B")]);
        assert!(section("# A\none\n", "A").is_empty());
    }
}
