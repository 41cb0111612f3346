//! Names of files and other words of the caller's, as they are printed. A name may hold anything,
//! and what steers a terminal, or turns the direction of writing, is spelled out.

use std::path::Path;

/// The name of a file, in quotes.
pub fn file(name: &Path) -> String {
    if name.as_os_str() == "-" {
        return "standard input".to_string();
    }
    format!("'{}'", plain(&name.to_string_lossy()))
}

/// Words without what could steer a terminal. What is no UTF-8 in a name comes as U+FFFD.
pub fn plain(words: &str) -> String {
    let spelled = |letter: char| match letter {
        '\\' => "\\\\".to_string(),
        _ if steers(letter) => letter.escape_default().to_string(),
        _ => letter.to_string(),
    };
    words.chars().map(spelled).collect()
}

/// Controls, and those letters of Unicode that stand for a direction, a break or nothing at all.
pub fn steers(letter: char) -> bool {
    letter.is_control()
        || matches!(letter, '\u{200b}'..='\u{200f}' | '\u{2028}'..='\u{202e}')
        || matches!(letter, '\u{2060}'..='\u{206f}' | '\u{61c}' | '\u{feff}')
}

#[cfg(test)]
mod tests {
    use super::{file, plain};
    use std::path::Path;

    #[test]
    fn nothing_steers_a_terminal() {
        assert_eq!(plain("a\u{1b}[31mb\r\n\u{9b}"), "a\\u{1b}[31mb\\r\\n\\u{9b}");
        assert_eq!(plain("\u{202e}lmth.x"), "\\u{202e}lmth.x");
        assert_eq!(plain("a\\n"), "a\\\\n");
        assert_eq!(plain("é ü 時"), "é ü 時");
        assert_eq!(file(Path::new("-")), "standard input");
        assert_eq!(file(Path::new("a b")), "'a b'");
    }
}
