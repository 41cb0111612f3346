//! The check of a response against its request, and what is asked of answers that were kept.

use crate::raw::{self, size};
use crate::PacketRefusal;

/// What a valid response tells: the true time is from `low` to `high`, in seconds since 1970.
#[derive(Clone, Copy, Debug, PartialEq, Eq)]
pub struct Window {
    /// MIDP: the midpoint.
    pub midp: u64,
    /// RADI: the radius.
    pub radi: u32,
    /// MIDP - RADI, or 0 where that is below 0.
    pub low: u64,
    /// MIDP + RADI, or 2^64 - 1 where that is above it.
    pub high: u64,
    /// MINT: the first second for which the delegated key is trusted. `midp` is not before it,
    /// while `low` may be.
    pub mint: u64,
    /// MAXT: the last second for which it is. `midp` is not after it, while `high` may be.
    pub maxt: u64,
}

/// What a valid answer hands out: its window, and beside it the key that signed it.
#[derive(Clone, Copy, Debug, PartialEq, Eq)]
pub struct Checked {
    /// The window.
    pub window: Window,
    /// PUBK: the delegated key.
    pub pubk: [u8; 32],
}

/// The window and the key of `response`, where it is a valid answer to `request`. The refusals are
/// 14 and then 1 to 13. A place is one in the response: of a bad request none is told.
///
/// The caller checks both signatures with what [`signed_parts`](crate::signed_parts) hands out:
/// `delegation` says whether the delegation's verifies, over
/// [`delegation_text`](crate::delegation_text), and `signature` whether the response's does, over
/// [`response_text`](crate::response_text). [`check_signed`](crate::check_signed) needs neither.
pub fn check_response(
    request: &[u8],
    response: &[u8],
    delegation: bool,
    signature: bool,
) -> Result<Checked, PacketRefusal> {
    // SAFETY: see raw.
    let verdict = unsafe {
        raw::tb_check_response(
            request.as_ptr(),
            size(request.len()),
            response.as_ptr(),
            size(response.len()),
            u32::from(delegation),
            u32::from(signature),
        )
    };
    of_verdict(verdict)
}

/// What the library answered, as a result.
pub(crate) fn of_verdict(verdict: raw::tb_verdict) -> Result<Checked, PacketRefusal> {
    PacketRefusal::check(verdict.code, verdict.at)?;
    let raw::tb_verdict { midp, radi, low, high, mint, maxt, pubk, .. } = verdict;
    Ok(Checked { window: Window { midp, radi, low, high, mint, maxt }, pubk })
}

/// What the library answered about a record, as a result.
pub(crate) fn of_judged(judged: raw::tb_judged) -> Result<Checked, PacketRefusal> {
    PacketRefusal::check(judged.code, judged.at)?;
    let raw::tb_judged { midp, radi, low, high, mint, maxt, pubk, .. } = judged;
    Ok(Checked { window: Window { midp, radi, low, high, mint, maxt }, pubk })
}

/// Whether a window that was kept may still be used at a time: the time is not past MAXT, which is
/// itself the last second that counts. That it is not before MINT is not asked.
///
/// ```
/// use trawlbeacon::{may_use, Window};
///
/// let window = Window { midp: 1000, radi: 10, low: 990, high: 1010, mint: 0, maxt: 2000 };
/// assert!(may_use(&window, 2000));
/// assert!(!may_use(&window, 2001));
/// ```
#[must_use]
pub fn may_use(window: &Window, time: u64) -> bool {
    // A window is that of an answer with code 0.
    // SAFETY: no pointer is passed.
    unsafe { raw::tb_may_use_fields(0, window.maxt, time) }
}

/// Whether two valid answers come from one delegation: PUBK, MINT and MAXT, which is all that DELE
/// holds (draft 19, 5.2.6), are equal. Which long-term key signed a DELE does not stand in an
/// answer: that both were checked under one is the caller's to compare, too.
///
/// ```
/// use trawlbeacon::{same_delegation, Checked, Window};
///
/// let window = Window { midp: 1000, radi: 10, low: 990, high: 1010, mint: 0, maxt: 2000 };
/// let first = Checked { window, pubk: [1; 32] };
/// let later = Window { midp: 1500, low: 1490, high: 1510, ..window };
/// assert!(same_delegation(&first, &Checked { window: later, ..first }));
/// // One key, and a delegation that ends at another second.
/// let longer = Window { maxt: 3000, ..later };
/// assert!(!same_delegation(&first, &Checked { window: longer, ..first }));
/// ```
#[must_use]
pub fn same_delegation(first: &Checked, second: &Checked) -> bool {
    let [Window { mint, maxt, .. }, other] = [first.window, second.window];
    // SAFETY: see raw.
    unsafe {
        raw::tb_same_delegation_fields(
            0,
            &first.pubk,
            mint,
            maxt,
            0,
            &second.pubk,
            other.mint,
            other.maxt,
        )
    }
}
