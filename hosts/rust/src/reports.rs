//! Reports as JSON, in the form in which malfeasance is reported (draft 19, section 8.4.1; RFC 8259
//! and RFC 4648): read into the records of a pile, and written from one.

// How many records or bytes there are, and a place, is told of what stands in a buffer that was
// lent, so nothing is lost where it becomes a usize.

use crate::raw::{self, size};
use crate::{PacketRefusal, Refusal, ReportRefusal, Run};

/// The most bytes that a report has that is written here: 16 records with packets of 2,000 bytes. A
/// text that is read may be longer.
pub const LONGEST_REPORT: usize = 87_609;

/// The run that was cut out of a text.
#[derive(Clone, Copy, Debug, PartialEq, Eq)]
pub struct CutText {
    /// Its ends' places among the entries of the text.
    pub run: Run,
    /// How many bytes of text were written.
    pub length: usize,
}

/// Reads a report into the records of a pile: they are written at the front of `out`, and how many
/// they are is the answer. What follows them stays. `out` must have
/// [`RECORD_LENGTH`](crate::RECORD_LENGTH) bytes a record.
///
/// The outermost value is an object with one member `responses`, a list of 1 to 16 objects with
/// `rand`, `publicKey`, `request` and `response`, each once and in base64. Other members are
/// skipped, and so is whatever the first entry has for a rand: its record's is zero. Objects and
/// arrays nest 16 deep at most. Whether the packets are any good is not asked here.
///
/// The refusals are 24, 25 and 19, and then all of `out` stays.
///
/// ```
/// use trawlbeacon::{read_report, Refusal, RECORD_LENGTH};
///
/// let key = "A".repeat(43) + "=";
/// let text = format!(
///     r#"{{"responses": [{{"publicKey": "{key}", "request": "", "response": "Zg=="}}]}}"#
/// );
/// let mut out = [1; RECORD_LENGTH];
/// assert_eq!(read_report(text.as_bytes(), &mut out), Ok(1));
/// assert_eq!((out[68], out[2096]), (1, b'f'));
/// assert_eq!(read_report(text.as_bytes(), &mut out[1..]), Err(Refusal::Room));
/// ```
pub fn read_report(text: &[u8], out: &mut [u8]) -> Result<usize, Refusal> {
    let (from, to) = (text.as_ptr(), out.as_mut_ptr());
    // SAFETY: see raw.
    let read = unsafe { raw::tb_read_report(from, size(text.len()), to, size(out.len())) };
    Refusal::check(read.code)?;
    Ok(read.records as usize)
}

/// Writes a pile that is a report at the front of `out`, as text, and tells how many bytes that
/// took. What follows them stays; [`LONGEST_REPORT`] bytes are always enough. The text has no
/// blanks and no escapes, and [`read_report`] makes the same records of it.
///
/// The refusals are those of [`check_report`](crate::check_report), with the places that it tells,
/// and then 19; then all of `out` stays.
///
/// ```
/// use trawlbeacon::{write_report, Refusal, RECORD_LENGTH};
///
/// // A record of zeros is not valid, so that its pile is no report.
/// let why = write_report(&[0; RECORD_LENGTH], &[1, 1], &mut []).unwrap_err();
/// assert_eq!((why.refusal, why.place), (Refusal::Request, Some(0)));
/// ```
pub fn write_report(pile: &[u8], answers: &[u8], out: &mut [u8]) -> Result<usize, ReportRefusal> {
    let (from, told, to) = (pile.as_ptr(), answers.as_ptr(), out.as_mut_ptr());
    // SAFETY: see raw.
    of_wrote(unsafe {
        raw::tb_write_report(from, size(pile.len()), told, size(answers.len()), to, size(out.len()))
    })
}

/// What [`write_report`] does, with each record judged by its own signatures and not by answers. 15
/// is then about the pile's length alone.
///
/// ```
/// # let pile = independent::appendix::pile().pile;
/// // The report of draft 19, appendix B.
/// let mut out = [0; trawlbeacon::LONGEST_REPORT];
/// let length = trawlbeacon::write_signed_report(&pile, &mut out)?;
/// assert!(out[..length].starts_with(br#"{"responses":[{"publicKey":"FnDyLV"#));
///
/// let mut back = vec![0; pile.len()];
/// assert_eq!(trawlbeacon::read_report(&out[..length], &mut back), Ok(3));
/// assert_eq!(back, pile);
/// # Ok::<(), trawlbeacon::ReportRefusal>(())
/// ```
pub fn write_signed_report(pile: &[u8], out: &mut [u8]) -> Result<usize, ReportRefusal> {
    let (from, to) = (pile.as_ptr(), out.as_mut_ptr());
    // SAFETY: see raw.
    of_wrote(unsafe { raw::tb_write_signed_report(from, size(pile.len()), to, size(out.len())) })
}

/// What the library answered about a report that is written, as a result.
fn of_wrote(wrote: raw::tb_published) -> Result<usize, ReportRefusal> {
    match PacketRefusal::check(wrote.code, wrote.at) {
        Ok(()) => Ok(wrote.length as usize),
        Err(PacketRefusal { refusal, at }) => {
            use Refusal::{NoContradiction, Pile, Room};
            let of_a_record = !matches!(refusal, Pile | NoContradiction | Room);
            Err(ReportRefusal { refusal, place: of_a_record.then_some(wrote.place as usize), at })
        }
    }
}

/// Reads a report, cuts out of its records the run that convicts by itself, as
/// [`cut_run`](crate::cut_run) does, and writes that at the front of `out`, as text. What follows
/// it stays; [`LONGEST_REPORT`] bytes are always enough. `answers` are those about the text's
/// records, two bytes each.
///
/// The refusals are 24, 25, 15, 18 and 19, and then all of `out` stays.
///
/// ```
/// use trawlbeacon::{cut_text, Refusal, LONGEST_REPORT};
///
/// let mut out = [0; LONGEST_REPORT];
/// assert_eq!(cut_text(b"[1, 2", &[], &mut out), Err(Refusal::ReportText));
/// assert_eq!(cut_text(br#"{"responses": []}"#, &[], &mut out), Err(Refusal::Entries));
/// ```
pub fn cut_text(text: &[u8], answers: &[u8], out: &mut [u8]) -> Result<CutText, Refusal> {
    let (from, told, to) = (text.as_ptr(), answers.as_ptr(), out.as_mut_ptr());
    // SAFETY: see raw.
    of_cut_text(unsafe {
        raw::tb_cut_text(from, size(text.len()), told, size(answers.len()), to, size(out.len()))
    })
}

/// What [`cut_text`] does, with each record judged by its own signatures and not by answers. The
/// refusals are 24, 25, 18 and 19.
///
/// ```
/// # let vectors = concat!(env!("CARGO_MANIFEST_DIR"), "/../../vectors");
/// # let text = std::fs::read(format!("{vectors}/malfeasance-report.json")).unwrap();
/// // The report of draft 19, appendix B: the first two of its three responses convict.
/// let mut out = [0; trawlbeacon::LONGEST_REPORT];
/// let cut = trawlbeacon::cut_signed_text(&text, &mut out)?;
/// assert_eq!((cut.run.first, cut.run.last), (0, 1));
/// assert!(out[..cut.length].ends_with(br#""}]}"#));
/// # Ok::<(), trawlbeacon::Refusal>(())
/// ```
pub fn cut_signed_text(text: &[u8], out: &mut [u8]) -> Result<CutText, Refusal> {
    let (from, to) = (text.as_ptr(), out.as_mut_ptr());
    // SAFETY: see raw.
    of_cut_text(unsafe { raw::tb_cut_signed_text(from, size(text.len()), to, size(out.len())) })
}

/// What the library answered about a run that is written as text, as a result.
fn of_cut_text(cut: raw::tb_forwarded) -> Result<CutText, Refusal> {
    Refusal::check(cut.code)?;
    let run = Run { first: cut.first as usize, last: cut.last as usize };
    Ok(CutText { run, length: cut.length as usize })
}
