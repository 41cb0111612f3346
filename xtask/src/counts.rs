//! Holds the table of docs/PROVED.md, of what is compared and how often, to what the tests said. Each
//! of them says `counted: NUMBER WHAT` of the cases that it held; numbers of the same WHAT are added
//! up. The table has just these, and none is missing.

use crate::report::{at, unless, Checked, Verdict, Wrong};
use crate::scan::{digits, numbered};
use crate::tree::Tree;
use std::collections::BTreeMap;
use std::fs;

const PAGE: &str = "docs/PROVED.md";

pub fn check(tree: &Tree, words: &[&str]) -> Verdict {
    if words.is_empty() {
        return Err(Wrong::Usage);
    }
    let mut due = counted(words)?;
    if due.is_empty() {
        return Err(Wrong::one(format!("nothing was counted in these files: {}", words.join(" "))));
    }
    let rows = rows(&tree.read(PAGE)?);
    let mut problems = Vec::new();
    for (line, row) in &rows {
        if due.remove(row).is_none() {
            problems.push(at(PAGE, *line, &format!("no test counted this row: {row}")));
        }
    }
    problems.extend(due.keys().map(|row| format!("{PAGE}: its table lacks this row: {row}")));
    unless(problems, format!("{} rows of {PAGE} are what the tests counted", rows.len()))
}

/// What the tests counted, as rows of the table. A line may begin with what the test runner prints
/// at the same time.
fn counted(files: &[&str]) -> Checked<BTreeMap<String, ()>> {
    let mut sums: BTreeMap<String, u64> = BTreeMap::new();
    for file in files {
        let text = fs::read(file)
            .map_err(|error| Wrong::one(format!("{file} cannot be read: {error}")))?;
        for line in String::from_utf8_lossy(&text).lines() {
            let Some((_, rest)) = line.rsplit_once("counted: ") else { continue };
            let number = digits(rest);
            let Some(what) = rest[number.len()..].strip_prefix(' ') else { continue };
            if let (Ok(number), false) = (number.parse::<u64>(), what.is_empty()) {
                *sums.entry(what.into()).or_default() += number;
            }
        }
    }
    Ok(sums.into_iter().map(|(what, sum)| (format!("| {what} | {} |", grouped(sum)), ())).collect())
}

/// A number with a comma before each three digits.
fn grouped(number: u64) -> String {
    let digits = number.to_string();
    let mut text = String::new();
    for (index, digit) in digits.chars().enumerate() {
        if index > 0 && (digits.len() - index) % 3 == 0 {
            text.push(',');
        }
        text.push(digit);
    }
    text
}

/// The rows below the heading `Compared`, with their lines.
fn rows(text: &str) -> Vec<(usize, String)> {
    let mut inside = false;
    let mut rows = Vec::new();
    for (number, line) in numbered(text) {
        if line.starts_with("| Compared |") {
            inside = true;
        } else if !line.starts_with('|') {
            inside = false;
        } else if inside && !line.starts_with("|-") {
            rows.push((number, line.to_string()));
        }
    }
    rows
}

#[cfg(test)]
mod tests {
    use super::*;
    use crate::testing::{found, Scratch};

    const TABLE: &str =
        "| Other | n |\n|---|---|\n| x | 1 |\n\n| Compared | How often |\n|---|---:|\n\
        | packets | 1,234,567 |\n| piles | 12 |\n\nWords.\n| y | 2 |\n";

    /// The line that tests print, put together here, since this test prints nothing that counts.
    fn said(number: u32, what: &str) -> String {
        format!("test a ... {}: {number} {what}\n", "counted")
    }

    fn right() -> (Scratch, String) {
        let text = said(1_234_560, "packets") + "ok\n" + &said(12, "piles") + &said(7, "packets");
        let scratch = Scratch::new(&[(PAGE, TABLE), ("said", &text)]);
        let file = scratch.tree().path("said").to_string_lossy().into_owned();
        (scratch, file)
    }

    #[test]
    fn numbers_of_the_same_words_are_added_up() {
        let (scratch, file) = right();
        let verdict = check(&scratch.tree(), &[&file]).unwrap();
        assert_eq!(verdict, "2 rows of docs/PROVED.md are what the tests counted");
    }

    #[test]
    fn another_number_is_found_with_the_row_that_is_due() {
        let (scratch, file) = right();
        scratch.alter(PAGE, "1,234,567", "1,234,568");
        let due = [
            "docs/PROVED.md:7: no test counted this row: | packets | 1,234,568 |",
            "docs/PROVED.md: its table lacks this row: | packets | 1,234,567 |",
        ];
        assert_eq!(found(check(&scratch.tree(), &[&file])), due);
    }

    #[test]
    fn a_row_too_few_too_many_or_twice_is_found() {
        let (scratch, file) = right();
        scratch.alter(PAGE, "| piles | 12 |\n", "");
        assert_eq!(found(check(&scratch.tree(), &[&file])).len(), 1);
        scratch.put(PAGE, &TABLE.replace("| piles", "| walks | 3 |\n| piles"));
        assert_eq!(found(check(&scratch.tree(), &[&file])).len(), 1);
        scratch.put(PAGE, &TABLE.replace("| piles", "| piles | 12 |\n| piles"));
        assert_eq!(found(check(&scratch.tree(), &[&file])).len(), 1);
    }

    #[test]
    fn nothing_counted_is_no_success() {
        let (scratch, file) = right();
        scratch.put("said", "ok\n");
        assert!(found(check(&scratch.tree(), &[&file]))[0].starts_with("nothing was counted"));
        assert_eq!(found(check(&scratch.tree(), &["/nonexistent"])).len(), 1);
    }
}
