//! Words put into lines of at most 100 columns.

/// What the lines begin and end with: the first and every later one begin otherwise, and the last
/// and every one before it end otherwise.
pub struct Around<'a> {
    pub first: &'a str,
    pub later: &'a str,
    pub broken: &'a str,
    pub last: &'a str,
}

pub const WIDTH: usize = 100;

impl Around<'_> {
    pub fn put(&self, text: &str) -> String {
        let words: Vec<&str> = text.split_whitespace().collect();
        let mut lines = String::new();
        let mut line = format!("{}{}", self.first, words[0]);
        for (index, word) in words.iter().enumerate().skip(1) {
            let end = if index + 1 < words.len() { self.broken } else { self.last };
            let longer = format!("{line} {word}");
            if longer.chars().count() + end.chars().count() > WIDTH {
                lines += &format!("{line}{}\n", self.broken);
                line = format!("{}{word}", self.later);
            } else {
                line = longer;
            }
        }
        format!("{lines}{line}{}\n", self.last)
    }
}

#[cfg(test)]
mod tests {
    use super::*;

    #[test]
    fn lines_are_broken_before_they_are_too_long() {
        let around = Around { first: "<", later: "-", broken: "+", last: ">" };
        assert_eq!(around.put("a b"), "<a b>\n");
        let word = "w".repeat(48);
        let fits = format!("<{word} {word}a>\n");
        assert_eq!(around.put(&format!("{word} {word}a")), fits);
        assert_eq!(fits.len(), WIDTH + 1);
        assert_eq!(around.put(&format!("{word} {word}ab")), format!("<{word}+\n-{word}ab>\n"));
    }
}
