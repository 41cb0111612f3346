//! Questions about reports as JSON, put to both sides, and about the fields that no answer shows.

use super::answers::{self, Answer, Both, Said, Written};
use super::pile_answers::{Asked, Reported};
use super::{hex, Xorshift};
use independent::ed25519::Ed25519;
use independent::pile;
use independent::report_text::{self, Cause, Entry};
use independent::{signed, write};
use trawlbeacon::{raw, ReportRefusal};

/// How many records were written.
#[derive(Clone, Copy, Debug, PartialEq, Eq)]
pub struct Records(pub usize);

impl Said for Records {
    fn say(&self) -> String {
        format!("{} records written", self.0)
    }
}

/// A buffer for what needs this much room: it has enough, too little by a byte or more, or more
/// than enough. Of its bytes no two neighbours are equal, nor any where two records have the same
/// place.
pub fn buffer(random: &mut Xorshift, needed: usize) -> Vec<u8> {
    let (less, more) = (random.below(needed + 1), random.below(300));
    let room = match random.below(12) {
        0 => needed.saturating_sub(1),
        1 => less,
        2 => 0,
        3 => pile::MOST_RECORDS * pile::RECORD,
        4..=6 => needed,
        _ => needed + more,
    };
    let start = random.below(256);
    (0..room).map(|at| (start + at + at / pile::RECORD) as u8).collect()
}

/// The records of a text. `read` is what the independent side read, so that it does so once.
pub fn read(
    text: &[u8],
    read: &Result<Vec<Entry>, Cause>,
    buffer: &[u8],
) -> Both<Written<Records>> {
    answers::write_both(
        buffer,
        None,
        |out| trawlbeacon::read_report(text, out).map(Records),
        |out| {
            let pile = report_text::pile_of(read.as_ref().map_err(|cause| cause.refusal())?);
            write::put(&pile, out).map(|length| Records(length / pile::RECORD))
        },
    )
}

/// What the writer of a report answers: how many bytes it wrote, or a code, its record and its
/// byte; with all of the buffer that it was lent.
#[derive(PartialEq)]
pub struct WroteReport {
    pub answer: Result<usize, (u32, Option<usize>, Option<usize>)>,
    pub buffer: Vec<u8>,
}

impl Answer for WroteReport {
    fn code(&self) -> u32 {
        self.answer.map_or_else(|refused| refused.0, |_| 0)
    }

    fn show(&self) -> String {
        format!("{:?}, and the buffer is {}", self.answer, hex(&self.buffer))
    }
}

/// Lends each side a copy of `buffer` of its own. What the independent side writes and refuses is
/// by the answers.
fn write_both(
    asked: Asked,
    buffer: &[u8],
    ours: impl FnOnce(&mut [u8]) -> Result<usize, ReportRefusal>,
) -> Both<WroteReport> {
    let (mut lent, mut lent_too) = (buffer.to_vec(), buffer.to_vec());
    let answer = ours(&mut lent).map_err(|no| (no.refusal.code(), no.place, no.at));
    let Reported(checked) = asked.report().independent;
    let answer_too = checked.and_then(|_| {
        let text = report_text::write(asked.pile, asked.answers).expect("it is a report");
        write::put(text.as_bytes(), &mut lent_too).map_err(|why| (why.code(), None, None))
    });
    Both {
        ours: WroteReport { answer, buffer: lent },
        independent: WroteReport { answer: answer_too, buffer: lent_too },
    }
}

/// The text of a pile that is a report by these answers.
pub fn write_report(asked: Asked, buffer: &[u8]) -> Both<WroteReport> {
    write_both(asked, buffer, |out| trawlbeacon::write_report(asked.pile, asked.answers, out))
}

/// The text of a pile that is a report by its own signatures.
pub fn write_signed(ed25519: &Ed25519, pile: &[u8], buffer: &[u8]) -> Both<WroteReport> {
    let answers = signed::all_answers(ed25519, pile).unwrap_or_default();
    let asked = Asked { pile, answers: &answers };
    write_both(asked, buffer, |out| trawlbeacon::write_signed_report(pile, out))
}

/// What is wrong with the fields that the functions of hosts/rust do not show: all but the code,
/// the place and the byte must be 0 where a call is refused.
pub fn unseen_fields(asked: Asked, text: &[u8], out: &mut [u8]) -> Option<String> {
    let ((pile, n), (answers, m)) =
        ((asked.pile.as_ptr(), asked.pile.len()), (asked.answers.as_ptr(), asked.answers.len()));
    let (to, room) = (out.as_mut_ptr(), out.len());
    // SAFETY: the library only reads the pile, its answers and the text, and only writes `out`.
    let (read, wrote) = unsafe {
        (
            raw::tb_read_report(text.as_ptr(), raw::size(text.len()), to, raw::size(room)),
            raw::tb_write_report(pile, raw::size(n), answers, raw::size(m), to, raw::size(room)),
        )
    };
    let of_a_record = !matches!(wrote.code, 0 | 15 | 18 | 19);
    let right = (read.code == 0 || read.records == 0)
        && (wrote.code == 0 || wrote.length == 0)
        && (of_a_record || wrote.place == 0)
        && !answers::unplaced(wrote.code, wrote.at);
    (!right).then(|| format!("{read:?}, {wrote:?}"))
}
