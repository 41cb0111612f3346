//! Random bytes of the system's: nonces, rands, and who is chosen.

use crate::status::Stop;
use std::os::raw::{c_uint, c_void};

extern "C" {
    fn getrandom(buffer: *mut c_void, length: usize, flags: c_uint) -> isize;
}

/// Without it the call waits until the system has gathered enough, and that may be long at boot.
const GRND_NONBLOCK: c_uint = 1;

/// 32 of them. A nonce that can be guessed proves nothing, so that there are none before the system
/// has good ones.
pub fn bytes() -> Result<[u8; 32], Stop> {
    let mut bytes = [0; 32];
    // SAFETY: the buffer is lent for the call, with its length.
    match unsafe { getrandom(bytes.as_mut_ptr().cast(), bytes.len(), GRND_NONBLOCK) } {
        32 => Ok(bytes),
        _ => Err(Stop::Failed(
            "the system has no random bytes yet; ask again when it has started".to_string(),
        )),
    }
}

/// A number below this one, which is not 0: each is as likely as the others.
pub fn below(end: u64) -> Result<u64, Stop> {
    // What is left over at the top would make small numbers likelier.
    let most = u64::MAX - u64::MAX % end;
    loop {
        let bytes = bytes()?;
        let drawn = u64::from_le_bytes([
            bytes[0], bytes[1], bytes[2], bytes[3], bytes[4], bytes[5], bytes[6], bytes[7],
        ]);
        if drawn < most {
            return Ok(drawn % end);
        }
    }
}

/// So many of the values, at random and in a random order.
pub fn some<T>(mut values: Vec<T>, count: usize) -> Result<Vec<T>, Stop> {
    let mut chosen = Vec::new();
    while chosen.len() < count && !values.is_empty() {
        chosen.push(values.swap_remove(below(values.len() as u64)? as usize));
    }
    Ok(chosen)
}

#[cfg(test)]
mod tests {
    use super::*;

    #[test]
    fn no_two_are_the_same() {
        assert_ne!(bytes().expect("there are some"), bytes().expect("there are more"));
    }

    /// Each of 4 stands in each of 3 places about as often as in the others: 250 times of 1,000.
    #[test]
    fn each_is_as_likely_as_the_others() {
        let mut counts = [[0; 4]; 3];
        for _ in 0..1_000 {
            let chosen = some(vec![0, 1, 2, 3], 3).expect("there are random bytes");
            assert_eq!(chosen.len(), 3);
            chosen.iter().zip(&mut counts).for_each(|(one, counts)| counts[*one as usize] += 1);
        }
        // Thirteen times the deviation that is usual.
        assert!(counts.iter().flatten().all(|count| (70..430).contains(count)), "{counts:?}");
        assert_eq!(some(vec![1, 2], 5).expect("there are random bytes").len(), 2);
    }
}
