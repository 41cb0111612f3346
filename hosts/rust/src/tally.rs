//! Contradiction in one pass: of windows as they come, and of a pile.

use crate::raw::{self, size, tb_tally};
use crate::Refusal;

/// Windows that are judged as they come. Of all that were taken only the largest MIDP - RADI is
/// kept, so that it has one size for any number of windows.
///
/// ```
/// let mut tally = trawlbeacon::Tally::new();
/// assert!(!tally.take(1000, 5));
/// // 995 is not above 995, but above 994.
/// assert!(!tally.take(990, 5));
/// assert!(tally.take(990, 4));
/// ```
#[derive(Clone, Copy, Debug, PartialEq, Eq)]
pub struct Tally {
    state: tb_tally,
}

impl Tally {
    /// Before any window.
    #[must_use]
    pub fn new() -> Self {
        let mut state = tb_tally { most: 0 };
        // SAFETY: see raw.
        unsafe { raw::tb_tally_start_field(&mut state.most) };
        Tally { state }
    }

    /// Takes one window more, told by its MIDP and RADI, and says whether one that was taken before
    /// it contradicts it: MIDP - RADI of the earlier one is above MIDP + RADI of this one, in whole
    /// numbers. So some two of the windows contradict each other exactly where one of the answers
    /// is yes.
    pub fn take(&mut self, midp: u64, radi: u32) -> bool {
        // SAFETY: see raw.
        unsafe { raw::tb_tally_take_field(&mut self.state.most, midp, radi) }
    }
}

impl Default for Tally {
    fn default() -> Self {
        Tally::new()
    }
}

/// Whether some two valid records of a pile contradict each other, the earlier the later. The
/// refusals are 15, and 18 where no two do. Links and rands play no part, nor do bad records between
/// the two, so that it does not say that a run convicts by itself.
///
/// ```
/// use trawlbeacon::{pile_contradicts, Refusal, RECORD_LENGTH};
///
/// assert_eq!(pile_contradicts(&[0; RECORD_LENGTH], &[1, 1]), Err(Refusal::NoContradiction));
/// assert_eq!(pile_contradicts(&[], &[]), Err(Refusal::Pile));
/// ```
pub fn pile_contradicts(pile: &[u8], answers: &[u8]) -> Result<(), Refusal> {
    let (from, told) = (pile.as_ptr(), answers.as_ptr());
    // SAFETY: see raw.
    Refusal::check(unsafe {
        raw::tb_pile_contradicts(from, size(pile.len()), told, size(answers.len()))
    })
}
