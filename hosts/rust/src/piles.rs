//! Piles of records, which are requests with the responses that answer them: what each record says,
//! whether a pile is a report, and the run of records that convicts by itself.
//!
//! Here piles are bytes, as they are kept and sent. [`Pile`](crate::Pile) makes them.

// A place that the library answers is one of a record of the pile, so nothing is lost where it
// becomes a usize.

use core::fmt;

use crate::check::of_judged;
use crate::raw::{self, size};
use crate::{Checked, PacketRefusal, Refusal};

/// Bytes of a record of a pile. Numbers in it are least significant byte first.
///
/// | Bytes | Hold |
/// |---|---|
/// | 0 to 31 | the server's long-term key |
/// | 32 to 63 | rand: the nonce is H(response of the record before, rand) |
/// | 64 to 67 | the length of the request, at most 2,000 |
/// | 68 to 71 | the length of the response, at most 2,000 |
/// | 72 to 95 | zeros |
/// | 96 to 2,095 | the request packet, then zeros |
/// | 2,096 to 4,095 | the response packet, then zeros |
pub const RECORD_LENGTH: usize = 4096;

/// The most records that a pile has. It has at least one, and they stand one after the other;
/// places of records count from 0.
///
/// Beside a pile come its answers, two bytes a record in the same order: whether the delegation's
/// signature verifies, and then whether the response's does, as [`SignedParts`](crate::SignedParts)
/// says. Each is 1 for yes or 0 for no, and no other byte.
pub const MOST_RECORDS: usize = 16;

/// Bytes of the largest pile.
pub const MOST_PILE_LENGTH: usize = MOST_RECORDS * RECORD_LENGTH;

/// The two records of a report that contradict each other, by their places.
#[derive(Clone, Copy, Debug, PartialEq, Eq)]
pub struct Pair {
    /// The earlier one.
    pub first: usize,
    /// The later one.
    pub second: usize,
}

/// A run of records that was cut out of a pile, by its ends' places in that pile.
#[derive(Clone, Copy, Debug, PartialEq, Eq)]
pub struct Run {
    /// The first record of the run.
    pub first: usize,
    /// The last one.
    pub last: usize,
}

impl Run {
    /// How many records it has.
    #[must_use]
    pub const fn records(self) -> usize {
        self.last - self.first + 1
    }
}

/// Why a pile is no report.
#[derive(Clone, Copy, Debug, PartialEq, Eq)]
#[must_use]
pub struct ReportRefusal {
    /// The refusal.
    pub refusal: Refusal,
    /// The place of the record to which it applies: there is one exactly where the code is 1 to 14,
    /// 16 or 17.
    pub place: Option<usize>,
    /// The byte at which that record's response is bad, counted from its first one: there is one
    /// exactly where the code is 4 to 7.
    pub at: Option<usize>,
}

impl fmt::Display for ReportRefusal {
    fn fmt(&self, f: &mut fmt::Formatter) -> fmt::Result {
        if let Some(place) = self.place {
            write!(f, "record {place}: ")?;
        }
        PacketRefusal { refusal: self.refusal, at: self.at }.fmt(f)
    }
}

#[cfg(feature = "std")]
impl std::error::Error for ReportRefusal {}

/// Whether `pile` is 1 to 16 whole records and `answers` two bytes for each, none above 1. The only
/// refusal is 15.
///
/// ```
/// use trawlbeacon::{pile_code, Refusal, RECORD_LENGTH};
///
/// assert_eq!(pile_code(&[0; RECORD_LENGTH], &[1, 0]), Ok(()));
/// assert_eq!(pile_code(&[], &[]), Err(Refusal::Pile));
/// assert_eq!(pile_code(&[0; RECORD_LENGTH], &[1, 2]), Err(Refusal::Pile));
/// ```
pub fn pile_code(pile: &[u8], answers: &[u8]) -> Result<(), Refusal> {
    let (from, told) = (pile.as_ptr(), answers.as_ptr());
    // SAFETY: see raw.
    Refusal::check(unsafe { raw::tb_pile_code(from, size(pile.len()), told, size(answers.len())) })
}

/// The window and the key of the record at `place`, where it is valid. The refusals are 15, also
/// where the pile has no such record, then 16, 14 and 1 to 13. Its rand and its links play no part.
///
/// ```
/// use trawlbeacon::{judge, Refusal, RECORD_LENGTH};
///
/// // A record of zeros has no request, and there is no second record.
/// let refused = |place| judge(&[0; RECORD_LENGTH], &[1, 1], place).map_err(Refusal::from);
/// assert_eq!(refused(0), Err(Refusal::Request));
/// assert_eq!(refused(1), Err(Refusal::Pile));
/// ```
pub fn judge(pile: &[u8], answers: &[u8], place: usize) -> Result<Checked, PacketRefusal> {
    let (from, told) = (pile.as_ptr(), answers.as_ptr());
    // SAFETY: see raw.
    of_judged(unsafe {
        raw::tb_judge(from, size(pile.len()), told, size(answers.len()), size(place))
    })
}

/// Whether the record at `place` is linked: the NONC of its request is H(whole response packet of
/// the record before, its own rand). It is not where that cannot be asked: the pile is not 1 to 16
/// whole records, it has no such record, there is none before it, one of the two lengths is above
/// 2,000, or the request is bad.
#[must_use]
pub fn linked(pile: &[u8], place: usize) -> bool {
    // SAFETY: see raw.
    unsafe { raw::tb_linked(pile.as_ptr(), size(pile.len()), size(place)) }
}

/// Whether the rand of the first record is all zero. It is not where the pile is not 1 to 16 whole
/// records.
#[must_use]
pub fn first_rand_zero(pile: &[u8]) -> bool {
    // SAFETY: see raw.
    unsafe { raw::tb_first_rand_zero(pile.as_ptr(), size(pile.len())) }
}

/// Whether two windows contradict each other, of which `earlier` was told before `later`, each by
/// its MIDP and RADI: MIDP - RADI of the earlier one is above MIDP + RADI of the later one, in
/// whole numbers. What else a window has plays no part, and is not asked for.
///
/// ```
/// use trawlbeacon::contradicts;
///
/// assert!(!contradicts((1000, 5), (990, 5)));
/// assert!(contradicts((1000, 5), (990, 4)));
/// ```
#[must_use]
pub fn contradicts(earlier: (u64, u32), later: (u64, u32)) -> bool {
    // SAFETY: no pointer is passed.
    unsafe { raw::tb_contradicts(earlier.0, earlier.1, later.0, later.1) }
}

/// The pair that a report names. A pile is a report where each record is valid, the first rand is
/// all zero, each later record is linked, and two records contradict each other; the pair is the
/// closest together, and of those as close the first.
///
/// The refusals are, in this order:
///
/// - 15;
/// - 16, 14 and 1 to 13, of the first record to which one applies;
/// - 17, of the first record that is not linked, or of record 0 where its rand is not zero;
/// - 18.
///
/// ```
/// use trawlbeacon::{check_report, Refusal, ReportRefusal, RECORD_LENGTH};
///
/// let refused = |refusal, place| Err(ReportRefusal { refusal, place, at: None });
/// let zeros = [0; RECORD_LENGTH + 1];
/// assert_eq!(check_report(&zeros[1..], &[1, 1]), refused(Refusal::Request, Some(0)));
/// assert_eq!(check_report(&zeros, &[1, 1]), refused(Refusal::Pile, None));
/// ```
pub fn check_report(pile: &[u8], answers: &[u8]) -> Result<Pair, ReportRefusal> {
    let (from, told) = (pile.as_ptr(), answers.as_ptr());
    // SAFETY: see raw.
    of_reported(unsafe { raw::tb_check_report(from, size(pile.len()), told, size(answers.len())) })
}

/// What the library answered about a report, as a result.
pub(crate) fn of_reported(checked: raw::tb_reported) -> Result<Pair, ReportRefusal> {
    match PacketRefusal::check(checked.code, checked.at) {
        Ok(()) => Ok(Pair { first: checked.first as usize, second: checked.second as usize }),
        Err(PacketRefusal { refusal, at }) => {
            let of_a_record = !matches!(refusal, Refusal::Pile | Refusal::NoContradiction);
            Err(ReportRefusal { refusal, place: of_a_record.then_some(checked.place as usize), at })
        }
    }
}

/// Cuts the run that convicts by itself out of a pile: its records are valid, each after its first
/// is linked, and two of them contradict each other. It is the shortest such run, and of those as
/// short the first. A bad record is no refusal; no run goes through it.
///
/// The records of the run are written at the front of `out`, with the rand of the first of them set
/// to zero, so that they are a report. What follows them stays. `out` must be as long as the pile
/// at least. The refusals are 15, 19 and 18, and then all of `out` stays.
///
/// ```
/// use trawlbeacon::{cut_run, Refusal, RECORD_LENGTH};
///
/// let (pile, mut out) = ([0; RECORD_LENGTH], [0; RECORD_LENGTH]);
/// assert_eq!(cut_run(&pile, &[1, 1], &mut out), Err(Refusal::NoContradiction));
/// assert_eq!(cut_run(&pile, &[1, 1], &mut out[1..]), Err(Refusal::Room));
/// ```
pub fn cut_run(pile: &[u8], answers: &[u8], out: &mut [u8]) -> Result<Run, Refusal> {
    let (from, told, to) = (pile.as_ptr(), answers.as_ptr(), out.as_mut_ptr());
    // SAFETY: see raw.
    of_cut(unsafe {
        raw::tb_cut_run(from, size(pile.len()), told, size(answers.len()), to, size(out.len()))
    })
}

/// What the library answered about a run, as a result.
pub(crate) fn of_cut(cut: raw::tb_cut) -> Result<Run, Refusal> {
    Refusal::check(cut.code)?;
    Ok(Run { first: cut.first as usize, last: cut.last as usize })
}
