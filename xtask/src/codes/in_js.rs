//! What stands in the JavaScript host, and in its declarations for TypeScript.

use super::lines::Around;
use super::table::Code;

const DOC: Around<'_> = Around { first: "    /** ", later: "     * ", broken: "", last: " */" };
const LINES: Around<'_> =
    Around { first: "        \"", later: "        \"", broken: " \" +", last: "\"," };

/// The numbers by their names, and the words by the numbers.
pub fn part(codes: &[Code]) -> String {
    let mut text = String::from("export const CODE = Object.freeze({\n");
    for code in codes {
        text += &format!("    {}: {},\n", code.name, code.number);
    }
    text += "});\n\nexport const WORDS = Object.freeze({\n";
    for code in codes {
        text += &format!("    {}:\n{}", code.number, LINES.put(&code.words));
    }
    text + "});\n"
}

/// The type of the numbers by their names, with the words beside each.
pub fn types(codes: &[Code]) -> String {
    let mut text = String::from("export const CODE: {\n");
    for code in codes {
        text += &DOC.put(&code.words);
        text += &format!("    readonly {}: {};\n", code.name, code.number);
    }
    text + "};\n"
}

#[cfg(test)]
mod tests {
    use super::*;

    #[test]
    fn each_code_has_a_name_words_and_a_type() {
        let codes = [Code { number: 7, name: "LONG".into(), words: "too long".into() }];
        let text = part(&codes);
        for due in ["    LONG: 7,\n", "    7:\n        \"too long\",\n"] {
            assert!(text.contains(due), "{due}");
        }
        assert!(types(&codes).contains("    /** too long */\n    readonly LONG: 7;\n"));
    }

    #[test]
    fn words_that_are_too_long_for_a_line_are_joined() {
        let words = format!("{} {} end", "w".repeat(60), "w".repeat(60));
        let text = part(&[Code { number: 1, name: "A".into(), words }]);
        assert!(text.contains("w \" +\n        \"w"), "{text}");
    }
}
