//! Keys, rands and other bytes as text: digits of hex, or base64 as in a report (RFC 4648).

use crate::names;
use crate::status::Stop;
use std::ffi::OsStr;

const LETTERS: &[u8; 64] = b"ABCDEFGHIJKLMNOPQRSTUVWXYZabcdefghijklmnopqrstuvwxyz0123456789+/";

pub fn hex(bytes: &[u8]) -> String {
    bytes.iter().map(|byte| format!("{byte:02x}")).collect()
}

pub fn base64(bytes: &[u8]) -> String {
    let group = |bytes: &[u8]| -> String {
        let byte = |at: usize| u32::from(bytes.get(at).copied().unwrap_or(0));
        let joined = byte(0) << 16 | byte(1) << 8 | byte(2);
        let letter = |at: usize| match at <= bytes.len() {
            true => char::from(LETTERS[(joined >> (18 - 6 * at) & 63) as usize]),
            false => '=',
        };
        (0..4).map(letter).collect()
    };
    bytes.chunks(3).map(group).collect()
}

/// What is wrong with a text that should be base64.
#[derive(Clone, Copy, Debug, PartialEq, Eq)]
pub enum NoBase64 {
    /// It is not whole groups of four.
    Groups,
    /// This letter is none of its alphabet, or `=` stands where none may.
    Letter(usize),
    /// Bits of its last letter that stand for no byte are not zero.
    SpareBits,
}

/// The bytes that letters stand for. What a number above 255 is, no letter is.
pub fn bytes_of(letters: &[u32]) -> Result<Vec<u8>, NoBase64> {
    if letters.len() % 4 != 0 {
        return Err(NoBase64::Groups);
    }
    let padding = letters.iter().rev().take(2).take_while(|one| **one == u32::from(b'=')).count();
    let (mut bytes, mut held, mut bits) = (Vec::new(), 0, 0);
    for (at, letter) in letters[..letters.len() - padding].iter().enumerate() {
        let value = LETTERS.iter().position(|one| u32::from(*one) == *letter);
        held = held << 6 | value.ok_or(NoBase64::Letter(at))?;
        bits += 6;
        if bits >= 8 {
            bits -= 8;
            bytes.push((held >> bits) as u8);
            held &= (1 << bits) - 1;
        }
    }
    if held == 0 {
        Ok(bytes)
    } else {
        Err(NoBase64::SpareBits)
    }
}

/// The 32 bytes that 64 digits of hex or 44 letters of base64 stand for.
pub fn bytes32(word: &OsStr) -> Result<[u8; 32], Stop> {
    let wrong = || {
        let word = names::plain(&word.to_string_lossy());
        Stop::Usage(format!("\"{word}\" is not 64 digits of hex, or 44 letters of base64"))
    };
    let letters: Vec<u32> = word.to_str().ok_or_else(wrong)?.chars().map(u32::from).collect();
    let bytes = match letters.len() {
        64 => of_hex(&letters),
        _ => bytes_of(&letters).ok(),
    };
    bytes.and_then(|bytes| bytes.try_into().ok()).ok_or_else(wrong)
}

fn of_hex(letters: &[u32]) -> Option<Vec<u8>> {
    let digit = |letter: u32| char::from_u32(letter).and_then(|letter| letter.to_digit(16));
    letters.chunks(2).map(|two| Some((16 * digit(two[0])? + digit(two[1])?) as u8)).collect()
}

#[cfg(test)]
mod tests {
    use super::*;

    fn letters(text: &str) -> Vec<u32> {
        text.chars().map(u32::from).collect()
    }

    /// RFC 4648, section 10.
    #[test]
    fn the_vectors_of_the_rfc() {
        let due = ["", "Zg==", "Zm8=", "Zm9v", "Zm9vYg==", "Zm9vYmE=", "Zm9vYmFy"];
        for (length, due) in due.into_iter().enumerate() {
            let bytes = &b"foobar"[..length];
            assert_eq!(base64(bytes), due);
            assert_eq!(bytes_of(&letters(due)).as_deref(), Ok(bytes));
        }
    }

    #[test]
    fn what_is_no_base64() {
        let no = |text: &str| bytes_of(&letters(text)).expect_err(text);
        assert_eq!([no("Zg"), no("Zg=")], [NoBase64::Groups; 2]);
        assert_eq!([no("Z==="), no("===="), no("Zg==Zg==")], [1, 0, 2].map(NoBase64::Letter));
        assert_eq!([no("Zm-v"), no("Zm9v \n\n\n"), no("é==="),], [2, 4, 0].map(NoBase64::Letter));
        assert_eq!([no("Zh=="), no("Zm9=")], [NoBase64::SpareBits; 2]);
    }

    #[test]
    fn a_key_in_either_form() {
        let key: [u8; 32] = core::array::from_fn(|at| 7 * at as u8);
        for word in [hex(&key), hex(&key).to_uppercase(), base64(&key)] {
            assert_eq!(bytes32(OsStr::new(&word)).ok(), Some(key), "{word}");
        }
        for word in ["", "4", &"0".repeat(63), &"g".repeat(64), &base64(&key)[1..]] {
            assert!(bytes32(OsStr::new(word)).is_err(), "{word}");
        }
    }
}
