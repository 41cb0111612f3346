//! Base64 as RFC 4648, section 4, has it: four letters for three bytes, with `=` where the last
//! group is short. It is read strictly: sections 3.2, 3.3 and 3.5 let a reader refuse what is not
//! padded, what has other letters, and bits that no byte takes.

const LETTERS: &[u8; 64] = b"ABCDEFGHIJKLMNOPQRSTUVWXYZabcdefghijklmnopqrstuvwxyz0123456789+/";

/// Why a text is no base64.
#[derive(Clone, Copy, Debug, PartialEq, Eq, PartialOrd, Ord)]
pub enum Fault {
    /// It is not whole groups of four, as where the padding was left out.
    Groups,
    /// It has something that is no letter, or `=` where none may be.
    Letter,
    /// The bits that no byte takes are not 0: several texts would stand for the same bytes.
    SpareBits,
}

impl Fault {
    /// Every one of them.
    pub const ALL: [Fault; 3] = [Fault::Groups, Fault::Letter, Fault::SpareBits];
}

/// The six bits that a letter stands for, by the table of section 4.
fn bits(letter: u8) -> Result<u32, Fault> {
    let value = match letter {
        b'A'..=b'Z' => letter - b'A',
        b'a'..=b'z' => letter - b'a' + 26,
        b'0'..=b'9' => letter - b'0' + 52,
        b'+' => 62,
        b'/' => 63,
        _ => return Err(Fault::Letter),
    };
    Ok(u32::from(value))
}

/// The bits of up to four letters, one after the other.
fn joined(letters: &[u8]) -> Result<u32, Fault> {
    letters.iter().try_fold(0, |joined, letter| Ok(joined << 6 | bits(*letter)?))
}

/// The bytes that a text stands for.
pub fn read(text: &[u8]) -> Result<Vec<u8>, Fault> {
    if text.len() % 4 != 0 {
        return Err(Fault::Groups);
    }
    let padding = text.iter().rev().take_while(|letter| **letter == b'=').count();
    if padding > 2 {
        return Err(Fault::Letter);
    }
    let letters = &text[..text.len() - padding];
    let mut bytes = Vec::with_capacity(text.len() / 4 * 3);
    let groups = letters.chunks_exact(4);
    let last = groups.remainder();
    for group in groups {
        bytes.extend(&joined(group)?.to_be_bytes()[1..]);
    }
    if !last.is_empty() {
        let last = (joined(last)? << (6 * padding)).to_be_bytes();
        let (taken, spare) = last[1..].split_at(3 - padding);
        if spare.iter().any(|byte| *byte != 0) {
            return Err(Fault::SpareBits);
        }
        bytes.extend(taken);
    }
    Ok(bytes)
}

/// The same, or nothing where the text stands for no bytes.
pub fn decode(text: &str) -> Option<Vec<u8>> {
    read(text.as_bytes()).ok()
}

/// The text that stands for these bytes.
pub fn encode(bytes: &[u8]) -> String {
    let group = |bytes: &[u8]| {
        let joined =
            (0..3).fold(0, |joined, at| joined << 8 | usize::from(*bytes.get(at).unwrap_or(&0)));
        let letter = |at: usize| LETTERS[joined >> (18 - 6 * at) & 63];
        // One byte takes two letters, two take three, and three take four.
        (0..4)
            .map(move |at| char::from(if at <= bytes.len() { letter(at) } else { b'=' }))
            .collect::<String>()
    };
    bytes.chunks(3).map(group).collect()
}

#[cfg(test)]
mod tests {
    use super::*;

    #[test]
    fn it_is_read_and_written_as_its_standard_says() {
        // RFC 4648, section 10.
        for (text, bytes) in [
            ("", ""),
            ("Zg==", "f"),
            ("Zm8=", "fo"),
            ("Zm9v", "foo"),
            ("Zm9vYg==", "foob"),
            ("Zm9vYmE=", "fooba"),
            ("Zm9vYmFy", "foobar"),
        ] {
            assert_eq!(decode(text).as_deref(), Some(bytes.as_bytes()), "{text}");
            assert_eq!(encode(bytes.as_bytes()), text);
        }
    }

    #[test]
    fn what_is_none_is_refused() {
        let faults: [(Fault, &[&str]); 3] = [
            (Fault::Groups, &["Zg", "Zg=", "Zg===", "Zm9v\n", "Z", "Zm8", "Zm9v=", " Zm9v"]),
            (
                Fault::Letter,
                &[
                    "====", "Z===", "Zg==Zg==", "Zm9!", "Zm 9", "=Zg=", "Z=g=", "Zm8=Zm9v", "Zm9-",
                    "Zm9_", "Zm9\n", "Zm9\0", "Zm\u{e9}",
                ],
            ),
            (Fault::SpareBits, &["Zh==", "Zm9=", "Zv==", "Zm8+Zn=="]),
        ];
        for (fault, texts) in faults {
            for text in texts {
                assert_eq!(read(text.as_bytes()), Err(fault), "{text:?}");
            }
        }
    }

    /// Every text of one group that passes is the one that its bytes are written as.
    #[test]
    fn no_two_texts_stand_for_the_same_bytes() {
        let (mut passed, some) = (0, b"AQgwZaz0189+/=-_ \n@[`{");
        for group in 0..some.len().pow(4) {
            let text: Vec<u8> =
                (0..4).map(|at| some[group / some.len().pow(at) % some.len()]).collect();
            if let Ok(bytes) = read(&text) {
                assert_eq!(encode(&bytes).into_bytes(), text);
                passed += 1;
            }
        }
        assert!(passed > 20_000, "{passed}");
    }
}
