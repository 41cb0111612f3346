//! UTF-8 as RFC 3629 has it: which bytes are characters, by the grammar of its section 4.

/// Why bytes are not UTF-8.
#[derive(Clone, Copy, Debug, PartialEq, Eq, PartialOrd, Ord)]
pub enum Fault {
    /// A byte from 80 to BF where a character starts.
    Stray,
    /// More bytes than the character needs.
    Overlong,
    /// A surrogate, D800 to DFFF, which is no character.
    Surrogate,
    /// A number above 10FFFF, or a byte that only such numbers would start with.
    TooLarge,
    /// A character that ends too soon.
    Cut,
}

impl Fault {
    /// Every one of them.
    pub const ALL: [Fault; 5] =
        [Fault::Stray, Fault::Overlong, Fault::Surrogate, Fault::TooLarge, Fault::Cut];
}

/// How many bytes follow the first of a character, and between which bounds the second one is. The
/// others are from 80 to BF.
fn shape(first: u8) -> Result<(usize, u8, u8), Fault> {
    Ok(match first {
        0x00..=0x7f => (0, 0, 0),
        0x80..=0xbf => return Err(Fault::Stray),
        0xc0..=0xc1 => return Err(Fault::Overlong),
        0xc2..=0xdf => (1, 0x80, 0xbf),
        0xe0 => (2, 0xa0, 0xbf),
        0xed => (2, 0x80, 0x9f),
        0xe1..=0xef => (2, 0x80, 0xbf),
        0xf0 => (3, 0x90, 0xbf),
        0xf1..=0xf3 => (3, 0x80, 0xbf),
        0xf4 => (3, 0x80, 0x8f),
        0xf5..=0xff => return Err(Fault::TooLarge),
    })
}

/// How many bytes the first character has.
fn first_character(bytes: &[u8]) -> Result<usize, Fault> {
    let (more, low, high) = shape(bytes[0])?;
    let tail = |at: usize| bytes.get(at).copied().filter(|byte| (0x80..=0xbf).contains(byte));
    if more > 0 {
        let second = tail(1).ok_or(Fault::Cut)?;
        match bytes[0] {
            0xe0 | 0xf0 if second < low => return Err(Fault::Overlong),
            0xed if second > high => return Err(Fault::Surrogate),
            0xf4 if second > high => return Err(Fault::TooLarge),
            _ => (),
        }
    }
    if (2..=more).any(|at| tail(at).is_none()) {
        return Err(Fault::Cut);
    }
    Ok(1 + more)
}

/// Whether all bytes are characters.
pub fn check(mut bytes: &[u8]) -> Result<(), Fault> {
    while !bytes.is_empty() {
        bytes = &bytes[first_character(bytes)?..];
    }
    Ok(())
}

#[cfg(test)]
mod tests {
    use super::*;

    /// The standard library of Rust has a reader of its own.
    #[test]
    fn all_short_sequences_are_as_rust_has_them() {
        let agree = |bytes: &[u8]| {
            assert_eq!(check(bytes).is_ok(), std::str::from_utf8(bytes).is_ok(), "{bytes:x?}");
        };
        for first in 0..=255 {
            agree(&[first]);
            for second in 0..=255 {
                agree(&[first, second]);
                for third in [0x00, 0x41, 0x7f, 0x80, 0x8f, 0x90, 0x9f, 0xa0, 0xbf, 0xc0, 0xff] {
                    agree(&[first, second, third]);
                    for fourth in [0x41, 0x7f, 0x80, 0xbf, 0xc0] {
                        agree(&[first, second, third, fourth]);
                    }
                }
            }
        }
    }

    #[test]
    fn every_character_is_one() {
        for character in '\0'..=char::MAX {
            let mut room = [0; 4];
            let bytes = character.encode_utf8(&mut room).as_bytes();
            assert_eq!(first_character(bytes), Ok(bytes.len()), "{character:?}");
        }
    }

    #[test]
    fn each_fault_has_its_bytes() {
        for (bytes, fault) in [
            (&b"a\x80"[..], Fault::Stray),
            (b"\xc1\xbf", Fault::Overlong),
            (b"\xe0\x9f\xbf", Fault::Overlong),
            (b"\xf0\x8f\xbf\xbf", Fault::Overlong),
            (b"\xed\xa0\x80", Fault::Surrogate),
            (b"\xf4\x90\x80\x80", Fault::TooLarge),
            (b"\xf8\x88\x80\x80\x80", Fault::TooLarge),
            (b"\xe2\x82", Fault::Cut),
            (b"\xc3a", Fault::Cut),
        ] {
            assert_eq!(check(bytes), Err(fault), "{bytes:x?}");
        }
    }
}
