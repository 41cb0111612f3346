//! Values: what the bytes at a tag stand for, and whether they are as many as they must be.

use crate::hash::Hash;
use crate::refusal::Refusal;

/// The most versions in a list (draft 19, sections 5.1.1 and 5.2.5).
const MOST_VERSIONS: usize = 32;

/// The most siblings in a path (draft 19, section 5.2.4).
const MOST_SIBLINGS: usize = 32;

/// A value of exactly `N` bytes.
pub fn array<const N: usize>(value: &[u8]) -> Result<[u8; N], Refusal> {
    value.try_into().map_err(|_| Refusal::Value)
}

/// A number of 4 bytes.
pub fn number(value: &[u8]) -> Result<u32, Refusal> {
    array(value).map(u32::from_le_bytes)
}

/// A radius: a number of 4 bytes that is not 0, since nobody can keep such a claim.
pub fn radius(value: &[u8]) -> Result<u32, Refusal> {
    match number(value)? {
        0 => Err(Refusal::Value),
        radius => Ok(radius),
    }
}

/// A time: seconds since 1970, in 8 bytes.
pub fn time(value: &[u8]) -> Result<u64, Refusal> {
    array(value).map(u64::from_le_bytes)
}

/// The parts of `N` bytes that a value consists of.
fn parts<const N: usize>(value: &[u8]) -> Result<Vec<[u8; N]>, Refusal> {
    value.chunks(N).map(array).collect()
}

/// A list of 1 to 32 versions, each larger than the one before it.
pub fn versions(value: &[u8]) -> Result<Vec<u32>, Refusal> {
    let versions: Vec<u32> = parts(value)?.into_iter().map(u32::from_le_bytes).collect();
    let rises = versions.windows(2).all(|pair| pair[0] < pair[1]);
    if (1..=MOST_VERSIONS).contains(&versions.len()) && rises {
        Ok(versions)
    } else {
        Err(Refusal::Value)
    }
}

/// The value that a list of versions is.
pub fn list(versions: &[u32]) -> Vec<u8> {
    versions.iter().flat_map(|version| version.to_le_bytes()).collect()
}

/// A path of 0 to 32 siblings.
pub fn path(value: &[u8]) -> Result<Vec<Hash>, Refusal> {
    let path = parts(value)?;
    if path.len() <= MOST_SIBLINGS {
        Ok(path)
    } else {
        Err(Refusal::Value)
    }
}

#[cfg(test)]
mod tests {
    use super::*;

    #[test]
    fn numbers_have_their_lowest_byte_first() {
        assert_eq!(number(&[1, 2, 3, 4]), Ok(0x0403_0201));
        assert_eq!(time(&[1, 0, 0, 0, 0, 0, 0, 0x80]), Ok(0x8000_0000_0000_0001));
        assert_eq!(number(&[0; 8]), Err(Refusal::Value));
        assert_eq!(time(&[0; 4]), Err(Refusal::Value));
        assert_eq!(number(&[]), Err(Refusal::Value));
    }

    #[test]
    fn a_radius_is_any_number_but_0() {
        for radi in [1, 2, 255, 256, 1 << 16, 1 << 24, 1 << 31, u32::MAX] {
            assert_eq!(radius(&radi.to_le_bytes()), Ok(radi));
        }
        for length in 0..=8 {
            assert_eq!(radius(&vec![0; length]), Err(Refusal::Value), "{length} zeros");
        }
        assert_eq!(radius(&[1, 0, 0, 0, 0, 0, 0, 0]), Err(Refusal::Value));
    }

    #[test]
    fn versions_are_1_to_32_and_rise() {
        let rising: Vec<u32> = (0..40).map(|i| i * 0x0600_0000).collect();
        for count in 0..=rising.len() {
            let read = versions(&list(&rising[..count]));
            assert_eq!(read.is_ok(), (1..=32).contains(&count), "{count} versions");
        }
        assert_eq!(versions(&list(&[0, 1, u32::MAX])), Ok(vec![0, 1, u32::MAX]));
        assert_eq!(versions(&list(&[1, 1])), Err(Refusal::Value));
        assert_eq!(versions(&list(&[2, 1])), Err(Refusal::Value));
        assert_eq!(versions(&[1, 0, 0, 0, 2]), Err(Refusal::Value));
    }

    #[test]
    fn paths_have_0_to_32_whole_siblings() {
        for length in 0..=1100 {
            let read = path(&vec![1; length]).map(|path| path.len());
            let whole = length % 32 == 0 && length <= 1024;
            assert_eq!(
                read,
                if whole { Ok(length / 32) } else { Err(Refusal::Value) },
                "{length} bytes"
            );
        }
    }
}
