//! Programs on the pages are parts of files in the tree, which `./test` compiles and runs. A fenced
//! block with the name of a language stands below a line `<!-- from FILE -->`, and its lines stand
//! in that file, one after the other. A block of `sh` or `text` is no program of this kind.

use crate::report::{at, no_words, unless, Verdict};
use crate::scan::numbered;
use crate::tree::Tree;

const PAGES: [&str; 2] = ["README.md", "docs/GUIDE.md"];
const NO_PROGRAMS: [&str; 2] = ["sh", "text"];

/// A fenced block: its line, the name of its language, the file that it is from, and its lines.
struct Block<'a> {
    line: usize,
    language: &'a str,
    from: Option<&'a str>,
    lines: Vec<&'a str>,
}

pub fn check(tree: &Tree, words: &[&str]) -> Verdict {
    no_words(words)?;
    let mut count = 0;
    let mut problems = Vec::new();
    for page in PAGES {
        let text = tree.read(page)?;
        for block in blocks(&text) {
            if NO_PROGRAMS.contains(&block.language) {
                continue;
            }
            count += 1;
            if let Err(why) = held(tree, &block) {
                problems.push(at(page, block.line, &why));
            }
        }
    }
    if count == 0 {
        problems.push(String::from("the pages have no program at all"));
    }
    unless(problems, format!("{count} programs on the pages stand in the files that they are from"))
}

fn held(tree: &Tree, block: &Block) -> Result<(), String> {
    let file = block.from.ok_or("no line before it says which file it is from")?;
    let text = tree.read(file).map_err(|_| format!("it is from {file}, which is not there"))?;
    let lines: Vec<&str> = text.lines().collect();
    let stands = |part: &[&str]| is_same(part, &block.lines);
    if block.lines.is_empty() || !lines.windows(block.lines.len()).any(stands) {
        return Err(format!("{file} does not have these lines"));
    }
    Ok(())
}

/// Whether two lists of lines are the same, but that the first may be set in by more blanks, as many
/// in each line.
fn is_same(part: &[&str], lines: &[&str]) -> bool {
    let by = indent(part[0]).saturating_sub(indent(lines[0]));
    let blanks = " ".repeat(by);
    part.iter().zip(lines).all(|(there, here)| {
        there.strip_prefix(&blanks).unwrap_or(there) == *here
            && (there.is_empty() || there.starts_with(&blanks))
    })
}

fn indent(line: &str) -> usize {
    line.len() - line.trim_start_matches(' ').len()
}

fn blocks(text: &str) -> Vec<Block<'_>> {
    let mut found = Vec::new();
    let mut open: Option<Block> = None;
    let mut from = None;
    for (number, line) in numbered(text) {
        let fence = line.strip_prefix("```");
        match (fence, &mut open) {
            (Some(_), Some(_)) => found.extend(open.take()),
            (Some(words), None) => {
                let language = words.split_whitespace().next().unwrap_or("text");
                open = Some(Block { line: number, language, from, lines: Vec::new() });
            }
            (None, Some(block)) => block.lines.push(line),
            (None, None) => {}
        }
        let named = line.strip_prefix("<!-- from ").and_then(|rest| rest.strip_suffix(" -->"));
        from = if open.is_none() { named } else { None };
    }
    found
}

#[cfg(test)]
mod tests {
    use super::*;
    use crate::testing::{found, Scratch};

    const README: &str = "Words.\n\n<!-- from a.c -->\n```c\nint x;\n    return x;\n```\n\n\
        ```sh\nls\n```\n\n```\nout\n```\n";

    fn right() -> Scratch {
        let guide = "<!-- from b.rs -->\n```rust\nlet x = 1;\n\nx\n```\n";
        Scratch::new(&[
            (PAGES[0], README),
            (PAGES[1], guide),
            ("a.c", "int y;\nint x;\n    return x;\n"),
            ("b.rs", "fn f() {\n    let x = 1;\n\n    x\n}\n"),
        ])
    }

    #[test]
    fn programs_that_stand_in_their_files_pass_also_set_in() {
        let said = check(&right().tree(), &[]).unwrap();
        assert_eq!(said, "2 programs on the pages stand in the files that they are from");
    }

    #[test]
    fn a_line_that_differs_is_found() {
        for (file, old, new) in
            [("a.c", "int x", "long x"), ("b.rs", "    x", "  x"), (PAGES[0], "int x", "int  x")]
        {
            let scratch = right();
            scratch.alter(file, old, new);
            let problems = found(check(&scratch.tree(), &[]));
            assert_eq!(problems.len(), 1, "{file}");
            assert!(problems[0].ends_with("does not have these lines"), "{problems:?}");
        }
    }

    #[test]
    fn lines_that_are_left_out_are_found() {
        let scratch = right();
        scratch.alter("b.rs", "\n\n", "\n    let y = 2;\n");
        let due = ["docs/GUIDE.md:2: b.rs does not have these lines"];
        assert_eq!(found(check(&scratch.tree(), &[])), due);
    }

    #[test]
    fn a_file_that_is_not_named_or_not_there_is_found() {
        let scratch = right();
        scratch.alter(PAGES[0], "<!-- from a.c -->\n", "<!-- from a.c -->\n\n");
        scratch.remove("b.rs");
        let due = [
            "README.md:5: no line before it says which file it is from",
            "docs/GUIDE.md:2: it is from b.rs, which is not there",
        ];
        assert_eq!(found(check(&scratch.tree(), &[])), due);
    }

    #[test]
    fn no_program_at_all_is_no_success() {
        let scratch = Scratch::new(&[(PAGES[0], "Words.\n"), (PAGES[1], "```sh\nls\n```\n")]);
        assert_eq!(found(check(&scratch.tree(), &[])), ["the pages have no program at all"]);
    }
}
