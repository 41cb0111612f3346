//! Timestamps of the 2021 draft, out of old captures.

use crate::{raw, Refusal};

/// What a stamp of the 2021 draft tells: the time is from `low` to `high`, in seconds since 1970.
///
/// It is a type of its own, and nothing in this package takes one: an old window is no evidence,
/// and enters no pile and no report.
///
/// ```
/// use trawlbeacon::{may_use, old_window, Window};
///
/// let old = old_window(40_587 << 40, 0)?;
/// let window = Window { midp: 1, radi: 1, low: 0, high: 2, mint: 0, maxt: 2 };
/// may_use(&window, old.high);
/// # Ok::<(), trawlbeacon::Refusal>(())
/// ```
///
/// ```compile_fail,E0308
/// use trawlbeacon::{may_use, old_window};
///
/// let old = old_window(40_587 << 40, 0)?;
/// may_use(&old, old.high);
/// # Ok::<(), trawlbeacon::Refusal>(())
/// ```
#[derive(Clone, Copy, Debug, PartialEq, Eq)]
pub struct OldWindow {
    /// The largest whole second that is not after MIDP - RADI, or 0 where that is before 1970.
    pub low: u64,
    /// The smallest whole second that is not before MIDP + RADI.
    pub high: u64,
}

/// The window of `midp` and `radi` as SREP of an old response has them: 8 bytes and 4, each one
/// number, least significant byte first. The top 3 bytes of `midp` are a Modified Julian Date, the
/// low 5 microseconds of that day, of which a leap second's are all read as the next midnight;
/// `radi` is in microseconds. The refusal is 29.
///
/// ```
/// use trawlbeacon::{old_window, OldWindow, Refusal};
///
/// // 20 May 2021 at 00:02:03.456789, a second each way.
/// let midp = u64::from_le_bytes([0x15, 0xcd, 0x5b, 0x07, 0x00, 0xda, 0xe7, 0x00]);
/// let old = old_window(midp, 1_000_000)?;
/// assert_eq!(old, OldWindow { low: 1_621_468_922, high: 1_621_468_925 });
///
/// assert_eq!(old_window(40_586 << 40, 0), Err(Refusal::OldStamp));
/// # Ok::<(), Refusal>(())
/// ```
pub fn old_window(midp: u64, radi: u32) -> Result<OldWindow, Refusal> {
    // SAFETY: no pointer is passed.
    let old = unsafe { raw::tb_old_window(midp, radi) };
    Refusal::check(old.code)?;
    let raw::tb_old { low, high, .. } = old;
    Ok(OldWindow { low, high })
}
