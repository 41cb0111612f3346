//! Puts one other byte into a file, for tests that damage packets.

use crate::report::{Checked, Verdict, Wrong};
use crate::tree::Tree;
use crate::whole;
use std::fs;
use std::path::Path;

pub fn check(_: &Tree, words: &[&str]) -> Verdict {
    let [file, offset, byte] = words else { return Err(Wrong::Usage) };
    let (Ok(offset), Ok(byte)) = (offset.parse::<usize>(), byte.parse::<u8>()) else {
        return Err(Wrong::Usage);
    };
    poke(file, offset, byte)?;
    Ok(format!("byte {offset} of {file} is {byte} now"))
}

/// A byte that is so already is an error, since a test that damages nothing tests nothing.
fn poke(file: &str, offset: usize, byte: u8) -> Checked<()> {
    let wrong = |why: String| Wrong::one(format!("{file}: {why}"));
    let mut bytes = fs::read(file).map_err(|error| wrong(format!("cannot be read: {error}")))?;
    let length = bytes.len();
    let place = bytes.get_mut(offset).ok_or_else(|| wrong(format!("has only {length} bytes")))?;
    if *place == byte {
        return Err(wrong(format!("byte {offset} is {byte} already")));
    }
    *place = byte;
    whole::put(Path::new(file), &bytes)
}

#[cfg(test)]
mod tests {
    use super::*;
    use crate::testing::{found, Scratch};

    fn poked(words: [&str; 2]) -> (Verdict, String) {
        let scratch = Scratch::new(&[("a", "xyz")]);
        let file = scratch.tree().path("a").to_string_lossy().into_owned();
        let verdict = check(&scratch.tree(), &[&file, words[0], words[1]]);
        (verdict, scratch.tree().read("a").unwrap())
    }

    #[test]
    fn one_byte_is_another_and_no_other_is() {
        let (verdict, text) = poked(["2", "65"]);
        assert!(verdict.is_ok());
        assert_eq!(text, "xyA");
    }

    #[test]
    fn what_would_alter_nothing_or_lies_beyond_the_end_is_refused() {
        assert!(found(poked(["2", "122"]).0)[0].ends_with("byte 2 is 122 already"));
        assert!(found(poked(["3", "65"]).0)[0].ends_with("has only 3 bytes"));
        assert_eq!(poked(["2", "256"]).0, Err(Wrong::Usage));
    }
}
