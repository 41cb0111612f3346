//! What other programs print.

use std::process::Command;

/// All that a program prints, where it is there and ends well.
pub fn printed(program: &str, arguments: &[&str]) -> Option<String> {
    let output = Command::new(program).args(arguments).output().ok()?;
    output.status.success().then(|| String::from_utf8_lossy(&output.stdout).into_owned())
}

/// The first words of what it prints.
pub fn first_words(program: &str, arguments: &[&str], count: usize) -> Option<String> {
    let text = printed(program, arguments)?;
    let words: Vec<&str> = text.split_whitespace().take(count).collect();
    (!words.is_empty()).then(|| words.join(" "))
}
