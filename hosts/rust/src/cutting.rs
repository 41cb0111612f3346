//! The cutter with a buffer of its own.

use alloc::vec;
use alloc::vec::Vec;

use crate::{cut_run, cut_signed_run, Refusal, Run, MOST_PILE_LENGTH, RECORD_LENGTH};

/// A run of records with its bytes.
#[derive(Clone, Debug, PartialEq, Eq)]
pub struct Cut {
    /// Where it stood in the pile.
    pub run: Run,
    /// Its records, with the rand of the first of them set to zero: with their answers, a report.
    pub bytes: Vec<u8>,
}

/// What [`cut_run`] does, without a buffer that is lent. The refusals are 15 and 18.
pub fn cut(pile: &[u8], answers: &[u8]) -> Result<Cut, Refusal> {
    own_cut(pile, |out| cut_run(pile, answers, out))
}

/// What [`cut_signed_run`] does, without a buffer that is lent. The refusals are 15 and 18.
///
/// ```
/// # let pile = independent::appendix::pile().pile;
/// // Of the three records of draft 19's report the first two convict by themselves.
/// let cut = trawlbeacon::cut_signed(&pile)?;
/// assert_eq!((cut.run.first, cut.run.last), (0, 1));
/// assert_eq!(cut.bytes, pile[..2 * trawlbeacon::RECORD_LENGTH]);
/// # Ok::<(), trawlbeacon::Refusal>(())
/// ```
pub fn cut_signed(pile: &[u8]) -> Result<Cut, Refusal> {
    own_cut(pile, |out| cut_signed_run(pile, out))
}

/// Cuts into a buffer of our own, which has no more room than the longest pile needs: what is longer
/// is refused with 15, which comes before 19.
fn own_cut(
    pile: &[u8],
    cut: impl FnOnce(&mut [u8]) -> Result<Run, Refusal>,
) -> Result<Cut, Refusal> {
    let mut bytes = vec![0; pile.len().min(MOST_PILE_LENGTH)];
    let run = cut(&mut bytes)?;
    bytes.truncate(run.records() * RECORD_LENGTH);
    Ok(Cut { run, bytes })
}
