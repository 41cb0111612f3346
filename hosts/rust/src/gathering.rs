//! What a host gathers: the pile of records, alone or beside what it found out about their
//! signatures.

use alloc::vec::Vec;

use crate::{cutting, piles, signed, Checked, Cut, PacketRefusal, Pair, Record, Refusal};
use crate::{ReportRefusal, MOST_PILE_LENGTH, RECORD_LENGTH};

/// Puts a record behind those of a pile. The only refusal is 15, where the pile is full.
fn put(bytes: &mut Vec<u8>, record: &Record) -> Result<(), Refusal> {
    if bytes.len() == MOST_PILE_LENGTH {
        return Err(Refusal::Pile);
    }
    bytes.extend(record.bytes());
    Ok(())
}

/// A pile in the making: up to [`MOST_RECORDS`](crate::MOST_RECORDS) records, which are judged by
/// their own signatures.
///
/// ```
/// use trawlbeacon::{Record, SignedPile};
///
/// # let exchanges = independent::appendix::entries().into_iter().map(|entry| {
/// #     (entry.key, entry.rand.unwrap_or([0; 32]), entry.request, entry.response)
/// # });
/// // Three servers were asked; draft 19, appendix B, has what was said.
/// let mut pile = SignedPile::new();
/// for (key, rand, request, response) in exchanges {
///     pile.push(&Record::new(&key, &rand, &request, &response)?)?;
/// }
/// assert_eq!(pile.judge(2).map(|told| told.window.midp), Ok(1_773_599_171));
///
/// // The first is a day ahead of the second: what those two said is the evidence.
/// let cut = pile.cut()?;
/// assert_eq!((cut.run.first, cut.run.last), (0, 1));
/// assert!(trawlbeacon::check_signed_report(&cut.bytes).is_ok());
/// # Ok::<(), trawlbeacon::Refusal>(())
/// ```
#[derive(Clone, Debug, Default, PartialEq, Eq)]
pub struct SignedPile {
    bytes: Vec<u8>,
}

impl SignedPile {
    /// A pile without a record, of which nothing is said but 15.
    #[must_use]
    pub const fn new() -> SignedPile {
        SignedPile { bytes: Vec::new() }
    }

    /// Puts a record behind the others. The only refusal is 15, where the pile is full, and then it
    /// stays as it was.
    pub fn push(&mut self, record: &Record) -> Result<(), Refusal> {
        put(&mut self.bytes, record)
    }

    /// How many records it has.
    #[must_use]
    pub fn records(&self) -> usize {
        self.bytes.len() / RECORD_LENGTH
    }

    /// The records, one after the other.
    #[must_use]
    pub fn bytes(&self) -> &[u8] {
        &self.bytes
    }

    /// What [`judge_signed`](crate::judge_signed) says of a record.
    pub fn judge(&self, place: usize) -> Result<Checked, PacketRefusal> {
        signed::judge_signed(&self.bytes, place)
    }

    /// What [`check_signed_report`](crate::check_signed_report) says of the pile.
    pub fn check_report(&self) -> Result<Pair, ReportRefusal> {
        signed::check_signed_report(&self.bytes)
    }

    /// What [`cut_signed`](crate::cut_signed) takes out of the pile.
    pub fn cut(&self) -> Result<Cut, Refusal> {
        cutting::cut_signed(&self.bytes)
    }
}

/// A pile in the making, for a host that verifies signatures itself: up to
/// [`MOST_RECORDS`](crate::MOST_RECORDS) records, each with the two answers about its signatures.
///
/// ```
/// use trawlbeacon::{Pile, Record, Refusal};
///
/// let record = Record::new(&[1; 32], &[0; 32], b"no request", b"no response")?;
/// let mut pile = Pile::new();
/// pile.push(&record, true, false)?;
/// assert_eq!((pile.bytes(), pile.answers()), (&record.bytes()[..], &[1, 0][..]));
/// assert_eq!(pile.judge(0).map_err(Refusal::from), Err(Refusal::Request));
/// assert_eq!(pile.cut(), Err(Refusal::NoContradiction));
/// # Ok::<(), Refusal>(())
/// ```
#[derive(Clone, Debug, Default, PartialEq, Eq)]
pub struct Pile {
    bytes: Vec<u8>,
    answers: Vec<u8>,
}

impl Pile {
    /// A pile without a record, of which nothing is said but 15.
    #[must_use]
    pub const fn new() -> Pile {
        Pile { bytes: Vec::new(), answers: Vec::new() }
    }

    /// Puts a record behind the others. The two answers are those that
    /// [`check_response`](crate::check_response) takes. The only refusal is 15, where the pile is
    /// full, and then it stays as it was.
    pub fn push(
        &mut self,
        record: &Record,
        delegation: bool,
        signature: bool,
    ) -> Result<(), Refusal> {
        put(&mut self.bytes, record)?;
        self.answers.extend([u8::from(delegation), u8::from(signature)]);
        Ok(())
    }

    /// How many records it has.
    #[must_use]
    pub fn records(&self) -> usize {
        self.bytes.len() / RECORD_LENGTH
    }

    /// The records, one after the other.
    #[must_use]
    pub fn bytes(&self) -> &[u8] {
        &self.bytes
    }

    /// The answers, two bytes a record.
    #[must_use]
    pub fn answers(&self) -> &[u8] {
        &self.answers
    }

    /// What [`judge`](crate::judge) says of a record.
    pub fn judge(&self, place: usize) -> Result<Checked, PacketRefusal> {
        piles::judge(&self.bytes, &self.answers, place)
    }

    /// What [`check_report`](crate::check_report) says of the pile.
    pub fn check_report(&self) -> Result<Pair, ReportRefusal> {
        piles::check_report(&self.bytes, &self.answers)
    }

    /// What [`cut`](crate::cut) takes out of the pile.
    pub fn cut(&self) -> Result<Cut, Refusal> {
        cutting::cut(&self.bytes, &self.answers)
    }
}
