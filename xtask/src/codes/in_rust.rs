//! What stands in the Rust host, as rustfmt would have it.

use super::lines::{Around, WIDTH};
use super::table::Code;

const DOC: Around<'_> = Around { first: "    /// ", later: "    /// ", broken: "", last: "" };
const LONG: Around<'_> =
    Around { first: "                \"", later: "                 ", broken: " \\", last: "\"" };

pub fn part(codes: &[Code]) -> String {
    let mut text = String::from("pub enum Refusal {\n");
    for code in codes {
        text += &format!("{}    {},\n", DOC.put(&code.words), camel(&code.name));
    }
    text += "}\n\nimpl Refusal {\n";
    let about = "Its number, which is the same in every language and never 0.";
    text += &function(about, "code(self) -> u32", "match self {");
    for code in codes {
        text += &format!("            Refusal::{} => {},\n", camel(&code.name), code.number);
    }
    text += "        }\n    }\n\n";
    text += &function("What is wrong, in words.", "words(self) -> &'static str", "match self {");
    text.extend(codes.iter().map(arm));
    text += "        }\n    }\n\n";
    let about = "The refusal with this number, if there is one.";
    text += &function(about, "from_code(code: u32) -> Option<Refusal>", "Some(match code {");
    for code in codes {
        text += &format!("            {} => Refusal::{},\n", code.number, camel(&code.name));
    }
    text + "            _ => return None,\n        })\n    }\n}\n"
}

/// PACKET_SIZE is PacketSize there.
fn camel(name: &str) -> String {
    let parts = name.split('_').map(|part| {
        let (first, rest) = part.split_at(part.len().min(1));
        first.to_string() + &rest.to_ascii_lowercase()
    });
    parts.collect()
}

fn function(about: &str, signature: &str, first: &str) -> String {
    format!("    /// {about}\n    #[must_use]\n    pub const fn {signature} {{\n        {first}\n")
}

fn arm(code: &Code) -> String {
    let pattern = format!("            Refusal::{}", camel(&code.name));
    let line = format!("{pattern} => \"{}\",\n", code.words);
    if line.trim_end().chars().count() <= WIDTH {
        line
    } else {
        format!("{pattern} => {{\n{}            }}\n", LONG.put(&code.words))
    }
}

#[cfg(test)]
mod tests {
    use super::*;

    #[test]
    fn each_code_stands_in_the_type_and_in_its_three_functions() {
        let codes = [Code { number: 7, name: "TOO_LONG".into(), words: "it is long".into() }];
        let text = part(&codes);
        for due in [
            "    /// it is long\n    TooLong,\n}\n",
            "            Refusal::TooLong => 7,\n",
            "            Refusal::TooLong => \"it is long\",\n",
            "            7 => Refusal::TooLong,\n            _ => return None,\n",
        ] {
            assert!(text.contains(due), "{due}");
        }
    }

    #[test]
    fn words_that_are_too_long_for_an_arm_go_over_lines() {
        let words = format!("{} end", "w".repeat(80));
        let text = arm(&Code { number: 1, name: "A".into(), words });
        assert!(text.starts_with("            Refusal::A => {\n                \"www"));
        assert!(text.ends_with("end\"\n            }\n"));
    }
}
