//! Small scans of text.

/// The digits that a text begins with.
pub fn digits(text: &str) -> &str {
    let end = text.find(|c: char| !c.is_ascii_digit()).unwrap_or(text.len());
    &text[..end]
}

/// All whole numbers in a text.
pub fn numbers(text: &str) -> Vec<u64> {
    text.split(|c: char| !c.is_ascii_digit()).filter_map(|run| run.parse().ok()).collect()
}

/// Whether a text is some of these characters, and not empty.
pub fn is_all(text: &str, allowed: impl Fn(char) -> bool) -> bool {
    !text.is_empty() && text.chars().all(allowed)
}

/// A letter of a name in code.
pub fn in_name(c: char) -> bool {
    c.is_ascii_lowercase() || c.is_ascii_digit() || c == '_'
}

/// The lines of a text with their numbers, from 1.
pub fn numbered(text: &str) -> impl Iterator<Item = (usize, &str)> {
    text.lines().enumerate().map(|(index, line)| (index + 1, line))
}

#[cfg(test)]
mod tests {
    use super::*;

    #[test]
    fn numbers_are_read_wherever_they_stand() {
        assert_eq!(digits("12 men"), "12");
        assert_eq!(digits("men"), "");
        assert_eq!(numbers("26 to 28, 31"), [26, 28, 31]);
    }

    #[test]
    fn an_empty_text_is_no_name() {
        assert!(is_all("a_1", in_name));
        assert!(!is_all("", in_name));
        assert!(!is_all("a-1", in_name));
    }
}
