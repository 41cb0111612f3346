//! The checks that verify both signatures by themselves: of a response under the long-term key that
//! is lent, of a record of a pile under its own. Each says what the form that takes answers says
//! where it is given those of [`answers`], and nothing else is asked of the host.
//!
//! A signature is verified only where nothing cheaper refuses: not one where a code comes before 12,
//! and the response's only where the delegation's verifies.

use crate::check::{of_judged, of_verdict};
use crate::piles::{of_cut, of_reported};
use crate::raw::{self, size};
use crate::{Checked, PacketRefusal, Pair, Refusal, ReportRefusal, Run};

/// Whether the two signatures of a response verify: what [`check_response`](crate::check_response)
/// and [`Pile::push`](crate::Pile::push) take.
#[derive(Clone, Copy, Debug, PartialEq, Eq)]
pub struct Answers {
    /// The delegation's, under the server's long-term key.
    pub delegation: bool,
    /// The response's own, under the delegated key.
    pub signature: bool,
}

/// Whether the two signatures of `response` verify, where the server's long-term key is `key`. Both
/// are a no where the response is refused with 1 to 7.
///
/// ```
/// # let response = independent::appendix::entries().swap_remove(0).response;
/// # let key = independent::appendix::entries()[0].key;
/// // The first server of draft 19's appendix B, and a key that is not its own.
/// let answers = trawlbeacon::answers(&key, &response);
/// assert!(answers.delegation && answers.signature);
/// let answers = trawlbeacon::answers(&[1; 32], &response);
/// assert!(!answers.delegation && answers.signature);
/// ```
#[must_use]
pub fn answers(key: &[u8; 32], response: &[u8]) -> Answers {
    let mut out = [0; 2];
    // SAFETY: see raw.
    unsafe { raw::tb_answers(key, response.as_ptr(), size(response.len()), &mut out) };
    Answers { delegation: out[0] == 1, signature: out[1] == 1 }
}

/// The window and the key of `response`, where it is a valid answer to `request` by the server with
/// the long-term key `key`. The refusals are 14 and then 1 to 13. A place is one in the response: of
/// a bad request none is told.
///
/// ```
/// use trawlbeacon::{check_signed, Refusal};
///
/// # let independent::appendix::Entry { key, request, mut response, .. } =
/// #     independent::appendix::entries().swap_remove(0);
/// // What draft 19, appendix B, prints of its first server.
/// let checked = check_signed(&key, &request, &response)?;
/// assert_eq!((checked.window.low, checked.window.high), (1_773_685_568, 1_773_685_574));
///
/// // Its MIDP stands here. A second more was signed by nobody.
/// response[216] += 1;
/// let why = check_signed(&key, &request, &response).unwrap_err();
/// assert_eq!(why.refusal, Refusal::Signature);
/// # Ok::<(), trawlbeacon::PacketRefusal>(())
/// ```
pub fn check_signed(
    key: &[u8; 32],
    request: &[u8],
    response: &[u8],
) -> Result<Checked, PacketRefusal> {
    let (asked, told) = (request.as_ptr(), response.as_ptr());
    // SAFETY: see raw.
    of_verdict(unsafe {
        raw::tb_check_signed(key, asked, size(request.len()), told, size(response.len()))
    })
}

/// The window and the key of the record at `place`, where it is valid by its own key. The refusals
/// are 15, where the pile is not 1 to 16 whole records or has no such record, then 16, 14 and 1 to
/// 13. Its rand and its links play no part.
///
/// ```
/// use trawlbeacon::{judge_signed, Refusal, RECORD_LENGTH};
///
/// // A record of zeros has no request, and there is no second record.
/// let refused = |place| judge_signed(&[0; RECORD_LENGTH], place).map_err(Refusal::from);
/// assert_eq!(refused(0), Err(Refusal::Request));
/// assert_eq!(refused(1), Err(Refusal::Pile));
/// ```
pub fn judge_signed(pile: &[u8], place: usize) -> Result<Checked, PacketRefusal> {
    // SAFETY: see raw.
    of_judged(unsafe { raw::tb_judge_signed(pile.as_ptr(), size(pile.len()), size(place)) })
}

/// The pair that a report names: what [`check_report`](crate::check_report) says, with each record
/// judged by its own key. The refusals are the same, but for 15, which is about the pile's length
/// alone.
///
/// The keys are those that the records themselves hold, in their first 32 bytes. Whose they are is
/// for the caller to know: anybody can make a report with keys of his own.
///
/// ```
/// use trawlbeacon::{check_signed_report, Pair, Refusal, ReportRefusal};
///
/// # let mut pile = independent::appendix::pile().pile;
/// // The report of draft 19, appendix B, and then with a byte changed in its second key.
/// assert_eq!(check_signed_report(&pile), Ok(Pair { first: 0, second: 1 }));
/// pile[trawlbeacon::RECORD_LENGTH] ^= 1;
/// let due = ReportRefusal { refusal: Refusal::Delegation, place: Some(1), at: None };
/// assert_eq!(check_signed_report(&pile), Err(due));
/// ```
pub fn check_signed_report(pile: &[u8]) -> Result<Pair, ReportRefusal> {
    // SAFETY: see raw.
    of_reported(unsafe { raw::tb_check_signed_report(pile.as_ptr(), size(pile.len())) })
}

/// Cuts the run that convicts by itself out of a pile: what [`cut_run`](crate::cut_run) does, with
/// each record judged by its own key. `out` must be as long as the pile at least; what follows the
/// run stays. The refusals are 15, where the pile is not 1 to 16 whole records, 19 and 18, and then
/// all of `out` stays.
///
/// ```
/// use trawlbeacon::{cut_signed_run, Refusal, RECORD_LENGTH};
///
/// let (pile, mut out) = ([0; RECORD_LENGTH], [0; RECORD_LENGTH]);
/// assert_eq!(cut_signed_run(&pile, &mut out), Err(Refusal::NoContradiction));
/// assert_eq!(cut_signed_run(&pile, &mut out[1..]), Err(Refusal::Room));
/// ```
pub fn cut_signed_run(pile: &[u8], out: &mut [u8]) -> Result<Run, Refusal> {
    let (from, to) = (pile.as_ptr(), out.as_mut_ptr());
    // SAFETY: see raw.
    of_cut(unsafe { raw::tb_cut_signed_run(from, size(pile.len()), to, size(out.len())) })
}
