//! The table of the codes, as the proved library has it.

use crate::report::{at, Checked, Wrong};
use crate::scan::{is_all, numbered};
use crate::tree::Tree;

pub struct Code {
    pub number: u8,
    pub name: String,
    pub words: String,
}

/// The file that has the table, in whichever crate it is.
pub fn file(tree: &Tree) -> Checked<String> {
    tree.one_of_crates("src/codes.rt")
}

/// The codes of a table. The words of one are the comment that ends on the line before its
/// constant. A line that is neither is an error, lest a code be passed over.
pub fn read(file: &str, text: &str) -> Checked<Vec<Code>> {
    let mut codes: Vec<Code> = Vec::new();
    let mut words: Vec<&str> = Vec::new();
    for (number, line) in numbered(text) {
        if line.is_empty() {
            words.clear();
        } else if let Some(comment) = line.strip_prefix("// ") {
            words.push(comment);
        } else {
            let code = constant(line).and_then(|named| fitting(named, &words.join(" "), &codes));
            codes.push(code.map_err(|why| Wrong::one(at(file, number, &why)))?);
            words.clear();
        }
    }
    if codes.is_empty() {
        return Err(Wrong::one(format!("{file}: has no codes")));
    }
    Ok(codes)
}

/// The name and the number of a line `pub const NAME: u8 = NUMBER;`.
fn constant(line: &str) -> Result<(&str, u8), String> {
    let parts = || {
        let rest = line.strip_prefix("pub const ")?.strip_suffix(';')?;
        let (name, number) = rest.split_once(": u8 = ")?;
        let is_name = is_all(name, |c| c.is_ascii_uppercase() || c == '_');
        let is_number = is_all(number, |c| c.is_ascii_digit());
        if !is_name || !is_number {
            return None;
        }
        Some((name, number.parse().ok()?))
    };
    parts().ok_or_else(|| String::from("this line is neither a comment nor a code"))
}

fn fitting((name, number): (&str, u8), words: &str, before: &[Code]) -> Result<Code, String> {
    if number <= before.last().map_or(0, |code| code.number) {
        return Err(String::from("this code is not above the one before it"));
    }
    if words.is_empty() {
        return Err(format!("there are no words before {name}"));
    }
    if words.contains(['"', '\\', '\t']) || words.contains("*/") {
        return Err(format!("the words of {name} do not fit into every language"));
    }
    Ok(Code { number, name: name.into(), words: words.into() })
}

#[cfg(test)]
mod tests {
    use super::*;
    use crate::testing::found;

    fn problem(text: &str) -> String {
        found(read("t.rt", text)).remove(0)
    }

    #[test]
    fn words_may_go_over_lines_and_end_before_the_constant() {
        let codes = read("t.rt", "// About.\n\n// too\n// long\npub const A_B: u8 = 3;\n").unwrap();
        assert_eq!(codes.len(), 1);
        let code = &codes[0];
        assert_eq!((code.number, &code.name[..], &code.words[..]), (3, "A_B", "too long"));
    }

    #[test]
    fn each_thing_that_is_wrong_is_told_with_its_line() {
        let one = "// x\npub const A: u8 = 1;\n";
        let twice = format!("{one}{one}");
        assert_eq!(problem(&twice), "t.rt:4: this code is not above the one before it");
        let silent = "// x\n\npub const A: u8 = 1;\n";
        assert_eq!(problem(silent), "t.rt:3: there are no words before A");
        let quoting = "// \"x\"\npub const A: u8 = 1;\n";
        assert!(problem(quoting).starts_with("t.rt:2: the words of A do not fit"));
        for other in
            ["pub const A: u16 = 1;", "//x", "pub const a: u8 = 1;", "pub const A: u8 = 300;"]
        {
            let text = format!("// x\n{other}\n");
            assert_eq!(problem(&text), "t.rt:2: this line is neither a comment nor a code");
        }
        assert_eq!(problem("// x\n"), "t.rt: has no codes");
    }
}
