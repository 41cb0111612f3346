//! Texts that could take a reader of reports long: one that looks back or starts over at each piece
//! of them would take a time that grows with the square of their length.

/// A text of about this many bytes: one piece many times between two others.
pub(crate) fn repeated(before: &str, piece: &str, after: &str, length: usize) -> Vec<u8> {
    let times = length.saturating_sub(before.len() + after.len()) / piece.len();
    [before, &piece.repeat(times), after].concat().into_bytes()
}

/// Texts of every kind that could take a reader long, with what they are made of.
pub fn texts(length: usize) -> Vec<(&'static str, Vec<u8>)> {
    let mut texts = of_values(length);
    texts.extend(of_entries(length));
    texts
}

/// JSON, or nearly, that has no entries.
fn of_values(length: usize) -> Vec<(&'static str, Vec<u8>)> {
    let deep = "[".repeat(14) + &"]".repeat(14) + ",";
    let of = |before: &str, piece: &str, after: &str| repeated(before, piece, after, length);
    vec![
        ("brackets", of("", "[", "")),
        ("objects within each other", of("", "{\"a\":", "")),
        ("arrays 14 deep, beside each other", of("{\"a\":[", &deep, "0]}")),
        ("blanks", of("", " ", "")),
        ("blanks behind a value", of("{}", "\n", "")),
        ("blanks between tokens", of("{", " ", "}")),
        ("one string", of("{\"a\":\"", "a", "\"}")),
        ("a string without an end", of("{\"a\":\"", "a", "")),
        ("a string of two-byte characters", of("{\"a\":\"", "\u{e9}", "\"}")),
        ("a string of escapes", of("{\"a\":\"", "\\u0041", "\"}")),
        ("a string of backslashes", of("{\"a\":\"", "\\\\", "\"}")),
        ("one name", of("{\"", "a", "\":0}")),
        ("one number", of("{\"a\":", "1", "}")),
        ("an array of numbers", of("{\"a\":[", "0,", "0]}")),
        ("empty strings", of("{\"a\":[", "\"\",", "\"\"]}")),
        ("members", of("{", "\"a\":0,", "\"a\":0}")),
        ("members with names that are nearly known", of("{", "\"response\":0,", "\"a\":0}")),
        ("members with escaped names", of("{", "\"\\u0072\\u0065\":0,", "\"a\":0}")),
        ("`responses` many times", of("{", "\"responses\":[],", "\"a\":0}")),
    ]
}

/// Reports, or nearly, with one entry or many.
fn of_entries(length: usize) -> Vec<(&'static str, Vec<u8>)> {
    let key = "A".repeat(43) + "=";
    let open = format!(r#"{{"publicKey":"{key}","request":"","response":"","rand":"{key}""#);
    let first = format!(r#"{{"responses":[{open}"#);
    let packet = format!(r#"{{"responses":[{{"publicKey":"{key}","response":"","request":""#);
    let deep = "[".repeat(12) + &"]".repeat(12) + ",";
    let escaped = ",\"\\u0072equest\":\"\"";
    let of = |before: &str, piece: &str, after: &str| repeated(before, piece, after, length);
    vec![
        ("members of one entry", of(&first, ",\"a\":0", "}]}")),
        ("arrays 12 deep in one entry", of(&(first.clone() + ",\"a\":["), &deep, "0]}]}")),
        ("rands of the first entry", of(&first, ",\"rand\":0", "}]}")),
        ("a member of an entry many times", of(&first, ",\"request\":\"\"", "}]}")),
        ("a member of an entry many times, escaped", of(&first, escaped, "}]}")),
        ("good entries", of(&first, &format!("}},{open}"), "}]}")),
        ("empty entries", of("{\"responses\":[{}", ",{}", "]}")),
        ("entries that are none", of("{\"responses\":[0", ",0", "]}")),
        ("one packet", of(&packet, "AAAA", "\"}]}")),
        ("one packet that is no base64", of(&packet, "AAAA", "!\"}]}")),
    ]
}

#[cfg(test)]
mod tests {
    use super::*;

    #[test]
    fn they_are_as_long_as_they_should_be() {
        for (what, text) in texts(10_000) {
            assert!((9_800..=10_000).contains(&text.len()), "{what}: {} bytes", text.len());
        }
    }
}
