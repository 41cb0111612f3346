//! Questions about reports as JSON that are cut, put to both sides.

use super::answers::{self, Both, Said, Written};
use independent::ed25519::Ed25519;
use independent::{report_text, signed, write};
use trawlbeacon::{raw, CutText, Run};

impl Said for CutText {
    fn say(&self) -> String {
        let CutText { run: Run { first, last }, length } = self;
        format!("run {first} {last}, {length} bytes written")
    }
}

/// The text of the run that convicts by these answers.
pub fn cut_text(text: &[u8], answers: &[u8], buffer: &[u8]) -> Both<Written<CutText>> {
    answers::write_both(
        buffer,
        None,
        |out| trawlbeacon::cut_text(text, answers, out),
        |out| {
            let ((first, last), text) = report_text::cut(text, answers)?;
            let length = write::put(text.as_bytes(), out)?;
            Ok(CutText { run: Run { first, last }, length })
        },
    )
}

/// The same by the signatures of the records.
pub fn cut_signed(ed25519: &Ed25519, text: &[u8], buffer: &[u8]) -> Both<Written<CutText>> {
    let pile = report_text::read(text).map_or(vec![], |entries| report_text::pile_of(&entries));
    let answers = signed::all_answers(ed25519, &pile).unwrap_or_default();
    let mut both = cut_text(text, &answers, buffer);
    let mut lent = buffer.to_vec();
    let answer = trawlbeacon::cut_signed_text(text, &mut lent).map_err(Into::into);
    both.ours = Written { answer, buffer: lent };
    both
}

/// What is wrong with the fields that the functions of hosts/rust do not show: all but the code
/// must be 0 where a call is refused.
pub fn unseen_fields(text: &[u8], answers: &[u8], out: &mut [u8]) -> Option<String> {
    let ((start, n), (told, m)) = ((text.as_ptr(), text.len()), (answers.as_ptr(), answers.len()));
    // SAFETY: the library only reads the text and the answers, and only writes `out`.
    let cut = unsafe {
        raw::tb_cut_text(
            start,
            raw::size(n),
            told,
            raw::size(m),
            out.as_mut_ptr(),
            raw::size(out.len()),
        )
    };
    let right = cut.code == 0 || (cut.first, cut.last, cut.length) == (0, 0, 0);
    (!right).then(|| format!("{cut:?}"))
}
