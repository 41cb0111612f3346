//! What stands in the header.

use super::lines::Around;
use super::table::Code;

const COMMENT: Around<'_> = Around { first: "    /* ", later: "     * ", broken: "", last: " */" };
const RETURN: Around<'_> =
    Around { first: "        return \"", later: "               \"", broken: " \"", last: "\";" };

pub fn part(codes: &[Code]) -> String {
    let passed = Code { number: 0, name: "PASSED".into(), words: "passed".into() };
    let codes: Vec<&Code> = std::iter::once(&passed).chain(codes).collect();
    let mut text = String::from("enum tb_code {\n");
    for (index, code) in codes.iter().enumerate() {
        let comma = if index + 1 < codes.len() { "," } else { "" };
        text += &COMMENT.put(&code.words);
        text += &format!("    TB_{} = {}{comma}\n", code.name, code.number);
    }
    text += "};\n\n/* What a code says, in words. */\n";
    text += "static inline const char *tb_code_text(uint32_t code) {\n    switch (code) {\n";
    for code in codes {
        text += &format!("    case TB_{}:\n{}", code.name, RETURN.put(&code.words));
    }
    text + "    default:\n        return \"no such code\";\n    }\n}\n"
}

#[cfg(test)]
mod tests {
    use super::*;

    #[test]
    fn each_code_has_a_name_and_words_and_0_is_passed() {
        let codes = [Code { number: 7, name: "LONG".into(), words: "too long".into() }];
        let text = part(&codes);
        for due in [
            "    /* passed */\n    TB_PASSED = 0,\n",
            "    /* too long */\n    TB_LONG = 7\n};\n",
            "    case TB_LONG:\n        return \"too long\";\n",
        ] {
            assert!(text.contains(due), "{due}");
        }
    }
}
