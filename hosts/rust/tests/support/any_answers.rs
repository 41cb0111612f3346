//! What the exports answer, in one form: what is counted, what must be 0 on a refusal, and which
//! bytes of the buffer that was lent may differ afterwards.

use std::ops::Range;
use trawlbeacon::raw;

/// Bytes of a record of a pile, of one of a list of servers, and of the request that is written.
pub const RECORD: usize = 4096;
const SERVER: usize = 64;
pub const REQUEST: usize = 1036;

#[derive(Clone, Debug, PartialEq, Eq)]
pub struct Answer {
    /// What is counted: the code; of an export that answers yes or no, 1 or 0; of one that answers
    /// nothing, 0.
    pub said: u32,
    /// Whether it is a refusal.
    pub refused: bool,
    pub at: u64,
    /// The place of the record that is to blame.
    pub place: u64,
    /// Every other field, one after the other: zeros on a refusal.
    pub others: Vec<u8>,
    /// Which bytes of the buffer or of the pile were written.
    pub written: Range<usize>,
}

impl Answer {
    pub fn code(code: u32) -> Self {
        let others = Vec::new();
        Answer { said: code, refused: code != 0, at: 0, place: 0, others, written: 0..0 }
    }

    pub fn yes_or_no(said: bool) -> Self {
        Answer { refused: false, ..Answer::code(said.into()) }
    }

    /// Of an export that writes all of its buffer of so many bytes.
    pub fn whole(length: usize) -> Self {
        Answer::code(0).wrote(0..length)
    }

    pub fn wrote(self, written: Range<usize>) -> Self {
        Answer { written: if self.refused { 0..0 } else { written }, ..self }
    }

    fn at(self, at: u64) -> Self {
        Answer { at, ..self }
    }

    fn numbers(mut self, numbers: &[u64]) -> Self {
        self.others.extend(numbers.iter().flat_map(|number| number.to_le_bytes()));
        self
    }

    fn bytes(mut self, bytes: &[u8]) -> Self {
        self.others.extend(bytes);
        self
    }
}

impl From<raw::tb_request> for Answer {
    fn from(told: raw::tb_request) -> Self {
        let raw::tb_request { code, with_srv, at, nonc, srv } = told;
        Answer::code(code).at(at).numbers(&[with_srv.into()]).bytes(&nonc).bytes(&srv)
    }
}

impl From<raw::tb_response> for Answer {
    fn from(told: raw::tb_response) -> Self {
        let raw::tb_response { code, indx, at, midp, radi, nonc, root } = told;
        let numbers = [indx.into(), midp, radi.into()];
        Answer::code(code).at(at).numbers(&numbers).bytes(&nonc).bytes(&root)
    }
}

impl From<raw::tb_wrote> for Answer {
    fn from(told: raw::tb_wrote) -> Self {
        let raw::tb_wrote { code, at, length } = told;
        Answer::code(code).at(at).numbers(&[length]).wrote(0..length as usize)
    }
}

impl From<raw::tb_batch> for Answer {
    fn from(told: raw::tb_batch) -> Self {
        let raw::tb_batch { code, at, answered } = told;
        Answer::code(code).at(at).numbers(&[answered])
    }
}

impl From<raw::tb_parts> for Answer {
    fn from(told: raw::tb_parts) -> Self {
        let raw::tb_parts { code, at, signature, delegation, pubk } = told;
        Answer::code(code).at(at).bytes(&signature).bytes(&delegation).bytes(&pubk)
    }
}

impl From<raw::tb_verdict> for Answer {
    fn from(told: raw::tb_verdict) -> Self {
        let raw::tb_verdict { code, radi, at, midp, low, high, mint, maxt, pubk } = told;
        let numbers = [radi.into(), midp, low, high, mint, maxt];
        Answer::code(code).at(at).numbers(&numbers).bytes(&pubk)
    }
}

impl From<raw::tb_rooted> for Answer {
    fn from(told: raw::tb_rooted) -> Self {
        Answer::code(told.code).numbers(&[told.depth.into()]).bytes(&told.root)
    }
}

impl From<raw::tb_placed> for Answer {
    fn from(told: raw::tb_placed) -> Self {
        let numbers = [told.indx.into(), told.depth.into()];
        Answer::code(told.code).numbers(&numbers).wrote(0..32 * told.depth as usize)
    }
}

impl From<raw::tb_laid> for Answer {
    fn from(told: raw::tb_laid) -> Self {
        let answer = Answer::code(told.code).numbers(&[told.depth.into(), told.length]);
        answer.wrote(0..told.length as usize)
    }
}

impl From<raw::tb_found> for Answer {
    fn from(told: raw::tb_found) -> Self {
        Answer::code(told.code).numbers(&[told.list.into(), told.offset])
    }
}

impl From<raw::tb_servers> for Answer {
    fn from(told: raw::tb_servers) -> Self {
        let raw::tb_servers { code, records, passed_over } = told;
        Answer::code(code)
            .numbers(&[records, passed_over])
            .wrote(0..SERVER * records.min(64) as usize)
    }
}

impl From<raw::tb_addressed> for Answer {
    fn from(told: raw::tb_addressed) -> Self {
        let raw::tb_addressed { code, tcp, length } = told;
        Answer::code(code).numbers(&[tcp.into(), length]).wrote(0..length as usize)
    }
}

/// The place stands in it on a refusal too, and is not taken over: who asked for it looks at it.
impl From<raw::tb_judged> for Answer {
    fn from(told: raw::tb_judged) -> Self {
        let raw::tb_judged { code, radi, place: _, at, midp, low, high, mint, maxt, pubk } = told;
        let numbers = [radi.into(), midp, low, high, mint, maxt];
        Answer::code(code).at(at).numbers(&numbers).bytes(&pubk)
    }
}

impl From<raw::tb_reported> for Answer {
    fn from(told: raw::tb_reported) -> Self {
        let raw::tb_reported { code, place, at, first, second } = told;
        Answer { place, ..Answer::code(code).at(at).numbers(&[first, second]) }
    }
}

impl From<raw::tb_cut> for Answer {
    fn from(told: raw::tb_cut) -> Self {
        let raw::tb_cut { code, first, last } = told;
        let records = last.saturating_sub(first).saturating_add(1).min(16) as usize;
        Answer::code(code).numbers(&[first, last]).wrote(0..RECORD * records)
    }
}

impl From<raw::tb_records> for Answer {
    fn from(told: raw::tb_records) -> Self {
        let raw::tb_records { code, records } = told;
        Answer::code(code).numbers(&[records]).wrote(0..RECORD * records.min(16) as usize)
    }
}

impl From<raw::tb_published> for Answer {
    fn from(told: raw::tb_published) -> Self {
        let raw::tb_published { code, place, at, length } = told;
        let answer = Answer::code(code).at(at).numbers(&[length]).wrote(0..length as usize);
        Answer { place, ..answer }
    }
}

impl From<raw::tb_forwarded> for Answer {
    fn from(told: raw::tb_forwarded) -> Self {
        let raw::tb_forwarded { code, first, last, length } = told;
        Answer::code(code).numbers(&[first, last, length]).wrote(0..length as usize)
    }
}

impl From<raw::tb_asked> for Answer {
    fn from(told: raw::tb_asked) -> Self {
        let raw::tb_asked { code, server, nonce } = told;
        Answer::code(code).numbers(&[server]).bytes(&nonce).wrote(0..REQUEST)
    }
}

impl From<raw::tb_took> for Answer {
    fn from(told: raw::tb_took) -> Self {
        let raw::tb_took { code, outcome, at, first, second, midp, low, high, mint, maxt, radi } =
            told;
        let pair = [outcome.into(), first, second];
        let window = [midp, low, high, mint, maxt, radi.into()];
        Answer::code(code).at(at).numbers(&[&pair[..], &window].concat())
    }
}

impl From<raw::tb_time> for Answer {
    fn from(told: raw::tb_time) -> Self {
        let raw::tb_time { code, stopped, low, high, counted, agree, suspects } = told;
        Answer::code(code).numbers(&[stopped.into(), low, high, counted, agree, suspects])
    }
}

impl From<raw::tb_old> for Answer {
    fn from(told: raw::tb_old) -> Self {
        Answer::code(told.code).numbers(&[told.low, told.high])
    }
}
