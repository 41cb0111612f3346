//! What stands in the Python host.

use super::lines::Around;
use super::table::Code;

const COMMENT: Around<'_> = Around { first: "    # ", later: "    # ", broken: "", last: "" };

pub fn part(codes: &[Code]) -> String {
    let mut text = String::from("class Refusal(IntEnum):\n");
    text += "    \"\"\"Why something is refused.\"\"\"\n\n";
    for code in codes {
        text += &format!("{}    {} = {}\n", COMMENT.put(&code.words), code.name, code.number);
    }
    text += "\n\nWORDS: Dict[int, str] = {\n";
    text.extend(codes.iter().map(entry));
    text + "}\n"
}

/// Words that are too long for a line go over several, as neighbouring strings.
fn entry(code: &Code) -> String {
    let first = format!("    {}: \"", code.number);
    let around = Around { first: &first, later: "    \"", broken: " \"", last: "\"," };
    around.put(&code.words)
}

#[cfg(test)]
mod tests {
    use super::*;

    #[test]
    fn each_code_has_a_name_and_words() {
        let codes = [Code { number: 7, name: "LONG".into(), words: "too long".into() }];
        let text = part(&codes);
        for due in ["    # too long\n    LONG = 7\n", "    7: \"too long\",\n}\n"] {
            assert!(text.contains(due), "{due}");
        }
    }

    #[test]
    fn words_that_are_too_long_for_a_line_go_over_lines() {
        let words = format!("{} end", "w".repeat(90));
        let text = entry(&Code { number: 1, name: "A".into(), words });
        assert!(
            text.starts_with("    1: \"www") && text.ends_with(" \"\n    \"end\",\n"),
            "{text}"
        );
    }
}
