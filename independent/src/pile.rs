//! Piles: what a client keeps of its exchanges with servers, and what each record of a pile says
//! (house rules).
//!
//! A pile is 1 to 16 records of 4,096 bytes with nothing around them. Beside it come two answers a
//! record, those to the questions about its signatures.

use crate::check::{self, Valid};
use crate::hash;
use crate::packet;
use crate::place::{self, Place};
use crate::refusal::Refusal;
use crate::request;

/// Bytes of a record.
pub const RECORD: usize = 4096;

/// The most records of a pile.
pub const MOST_RECORDS: usize = 16;

/// Where the parts of a record start: the key stands before the first of them, and nothing after
/// the last.
pub(crate) mod at {
    pub const RAND: usize = 32;
    pub const REQUEST_LENGTH: usize = 64;
    pub const RESPONSE_LENGTH: usize = 68;
    pub const GAP: usize = 72;
    pub const REQUEST: usize = 96;
    pub const RESPONSE: usize = 2096;
}

/// A record, of which nothing is known but that it has 4,096 bytes.
#[derive(Clone, Copy, Debug, PartialEq, Eq)]
pub struct Record<'a> {
    bytes: &'a [u8],
}

impl<'a> Record<'a> {
    /// The area from `start` on, as the packet and what follows it. There is no such packet where
    /// the length is too large.
    fn area(self, start: usize, length_at: usize) -> Option<(&'a [u8], &'a [u8])> {
        let length = u32::from_le_bytes(
            self.bytes[length_at..length_at + 4].try_into().expect("it has 4 bytes"),
        );
        let length = usize::try_from(length).ok().filter(|length| *length <= packet::MOST)?;
        Some(self.bytes[start..start + packet::MOST].split_at(length))
    }

    fn request_area(self) -> Option<(&'a [u8], &'a [u8])> {
        self.area(at::REQUEST, at::REQUEST_LENGTH)
    }

    fn response_area(self) -> Option<(&'a [u8], &'a [u8])> {
        self.area(at::RESPONSE, at::RESPONSE_LENGTH)
    }

    /// The long-term key of the server.
    pub fn key(self) -> &'a [u8; 32] {
        self.bytes[..at::RAND].try_into().expect("it has 32 bytes")
    }

    /// What blinds the nonce.
    pub fn rand(self) -> &'a [u8; 32] {
        self.bytes[at::RAND..at::REQUEST_LENGTH].try_into().expect("it has 32 bytes")
    }

    /// The request and the response, where the record is laid out as it must be.
    pub fn packets(self) -> Result<(&'a [u8], &'a [u8]), Refusal> {
        let (request, after_request) = self.request_area().ok_or(Refusal::Record)?;
        let (response, after_response) = self.response_area().ok_or(Refusal::Record)?;
        let gap = &self.bytes[at::GAP..at::REQUEST];
        let zeros = [gap, after_request, after_response];
        if zeros.into_iter().all(is_zero) {
            Ok((request, response))
        } else {
            Err(Refusal::Record)
        }
    }

    /// Whether the nonce of this record's request was made of the response of the record before it.
    /// What else is wrong with either record plays no part.
    pub fn follows(self, before: Record) -> bool {
        let nonc = self
            .request_area()
            .and_then(|(packet, _)| request::read(packet).ok())
            .map(|request| request.nonc);
        match (nonc, before.response_area()) {
            (Some(nonc), Some((response, _))) => nonc == hash::link(response, self.rand()),
            _ => false,
        }
    }
}

/// Whether all bytes are zero. None of them ends the search, so that the compiler can take many at
/// a time.
fn is_zero(bytes: &[u8]) -> bool {
    bytes.iter().fold(0, |seen, byte| seen | byte) == 0
}

/// A record and a way to judge it.
pub trait Judge: Copy {
    /// The record.
    fn record(&self) -> Record<'_>;

    /// What the record tells, where it is valid.
    fn judge(&self) -> Result<Valid, Refusal>;

    /// Where the response of the record is bad, where that is why the record is not valid: the
    /// codes 4 to 7. A bad request is told by no place, since 14 is not one of them.
    fn place(&self) -> Option<Place> {
        let (_, response) = self.record().packets().ok()?;
        match self.judge() {
            Err(refusal) if (4..=7).contains(&refusal.code()) => place::in_response(response),
            _ => None,
        }
    }
}

/// A record with the answers about its signatures.
#[derive(Clone, Copy, Debug, PartialEq, Eq)]
pub struct Answered<'a> {
    /// The record.
    pub record: Record<'a>,
    /// Whether the signature of the delegation is right.
    pub delegation: bool,
    /// Whether the signature of the response is right.
    pub signature: bool,
}

impl Judge for Answered<'_> {
    fn record(&self) -> Record<'_> {
        self.record
    }

    fn judge(&self) -> Result<Valid, Refusal> {
        let (request, response) = self.record.packets()?;
        check::check(request, response, self.delegation, self.signature)
    }
}

/// The records of a pile, where there are 1 to 16 whole ones.
pub fn records(pile: &[u8]) -> Result<Vec<Record<'_>>, Refusal> {
    let count = pile.len() / RECORD;
    if pile.len() % RECORD != 0 || !(1..=MOST_RECORDS).contains(&count) {
        return Err(Refusal::Pile);
    }
    Ok(pile.chunks(RECORD).map(|bytes| Record { bytes }).collect())
}

/// The records of a pile with the answers about each.
pub fn read<'a>(pile: &'a [u8], answers: &[u8]) -> Result<Vec<Answered<'a>>, Refusal> {
    let records = records(pile)?;
    if answers.len() != 2 * records.len() || answers.iter().any(|answer| *answer > 1) {
        return Err(Refusal::Pile);
    }
    let answered = |(record, answers): (_, &[u8])| {
        let [delegation, signature] = [answers[0] == 1, answers[1] == 1];
        Answered { record, delegation, signature }
    };
    Ok(records.into_iter().zip(answers.chunks(2)).map(answered).collect())
}

/// What each record tells: its window and its key, or why it is not valid.
pub fn judge_all(pile: &[u8], answers: &[u8]) -> Result<Vec<Result<Valid, Refusal>>, Refusal> {
    Ok(read(pile, answers)?.iter().map(Answered::judge).collect())
}

/// Whether the record at `place` is linked to the one before it. Where that cannot be asked, it is
/// not.
pub fn linked(pile: &[u8], place: usize) -> bool {
    let records = records(pile).unwrap_or_default();
    // The pair of neighbours whose second is at `place` is the one before it.
    let pair = place.checked_sub(1).and_then(|before| records.windows(2).nth(before));
    pair.map_or(false, |pair| pair[1].follows(pair[0]))
}

/// Whether the rand of the first record is zero. Where there is no such record, it is not.
pub fn first_rand_zero(pile: &[u8]) -> bool {
    records(pile).map_or(false, |records| is_zero(records[0].rand()))
}

#[cfg(test)]
mod tests {
    use super::*;
    use crate::check::Window;
    use crate::making::{self, Link, Made};

    /// A pile of `count` valid records, each linked to the one before it.
    fn good(count: usize) -> Made {
        making::pile_of(&(0..count).map(|i| (1000 + i as u64, 5)).collect::<Vec<_>>())
    }

    fn codes(Made { pile, answers }: &Made) -> Vec<u32> {
        let judged = judge_all(pile, answers).expect("the pile is whole");
        judged.into_iter().map(|verdict| verdict.map_or_else(Refusal::code, |_| 0)).collect()
    }

    #[test]
    fn a_pile_has_1_to_16_whole_records() {
        let most = vec![0; 18 * RECORD];
        for count in 0..=17 {
            for length in [(count * RECORD).saturating_sub(1), count * RECORD, count * RECORD + 1] {
                let whole = length == count * RECORD && (1..=16).contains(&count);
                assert_eq!(
                    read(&most[..length], &vec![1; 2 * count]).is_ok(),
                    whole,
                    "{length} bytes"
                );
            }
        }
        assert_eq!(judge_all(&good(16).pile, &[1; 32]).map(|judged| judged.len()), Ok(16));
    }

    #[test]
    fn there_are_two_answers_a_record_and_each_is_0_or_1() {
        let Made { pile, .. } = good(3);
        for count in 0..=20 {
            assert_eq!(read(&pile, &vec![1; count]).is_ok(), count == 6, "{count} answers");
        }
        for at in 0..6 {
            for answer in [2, 3, 128, 255] {
                let mut answers = [1; 6];
                answers[at] = answer;
                assert_eq!(
                    judge_all(&pile, &answers),
                    Err(Refusal::Pile),
                    "answer {at} is {answer}"
                );
            }
        }
        assert_eq!(codes(&Made { pile, answers: vec![1, 1, 1, 0, 0, 1] }), [0, 13, 12]);
    }

    #[test]
    fn each_record_is_judged_by_itself() {
        let mut made = good(4);
        assert_eq!(codes(&made), [0; 4]);
        let told = judge_all(&made.pile, &made.answers).unwrap()[3];
        let window = Window { midp: 1003, radi: 5, low: 998, high: 1008, mint: 0, maxt: u64::MAX };
        assert_eq!(told, Ok(Valid { window, pubk: [15; 32] }));
        // The first letter of the mark, of a request and of a response.
        made.pile[at::REQUEST] ^= 1;
        made.pile[2 * RECORD + at::RESPONSE] ^= 1;
        assert_eq!(codes(&made), [14, 0, 2, 0]);
    }

    /// Every byte that no part of a record takes is tried, and the last of each part beside it.
    #[test]
    fn what_no_part_takes_must_be_zero() {
        let made = good(1);
        let (request, response) =
            read(&made.pile, &made.answers).unwrap()[0].record.packets().unwrap();
        let ends = [at::REQUEST + request.len(), at::RESPONSE + response.len()];
        for place in (at::GAP..at::REQUEST).chain(ends[0]..at::RESPONSE).chain(ends[1]..RECORD) {
            let mut spoilt = made.clone();
            spoilt.pile[place] = 1;
            assert_eq!(codes(&spoilt), [16], "byte {place}");
        }
        for place in ends {
            let mut spoilt = made.clone();
            spoilt.pile[place - 1] ^= 1;
            assert_ne!(codes(&spoilt), [16], "byte {}", place - 1);
        }
    }

    #[test]
    fn lengths_are_at_most_2000() {
        for (length_at, code) in [(at::REQUEST_LENGTH, 14), (at::RESPONSE_LENGTH, 3)] {
            for (length, code) in [(2000, code), (2001, 16), (1 << 16, 16), (u32::MAX, 16)] {
                let mut made = good(1);
                made.pile[length_at..length_at + 4].copy_from_slice(&length.to_le_bytes());
                assert_eq!(codes(&made), [code], "{length}");
            }
        }
    }

    #[test]
    fn the_key_and_the_rand_have_no_part_in_a_records_verdict() {
        let mut made = good(2);
        made.pile[..at::REQUEST_LENGTH].fill(0xee);
        assert_eq!(codes(&made), [0, 0]);
    }

    #[test]
    fn a_link_is_of_the_whole_response_before_and_the_rand() {
        let Made { pile, .. } = good(3);
        assert_eq!(
            [0, 1, 2, 3, usize::MAX].map(|place| linked(&pile, place)),
            [false, true, true, false, false]
        );
        assert!(!linked(&pile[1..], 1) && !linked(&[], 1));
        let broken = |change: &dyn Fn(&mut [u8])| {
            let mut pile = pile.clone();
            change(&mut pile);
            [linked(&pile, 1), linked(&pile, 2)]
        };
        assert_eq!(broken(&|pile| pile[RECORD + at::RAND] ^= 1), [false, true]);
        assert_eq!(broken(&|pile| pile[RECORD + at::RESPONSE] ^= 1), [true, false]);
        assert_eq!(broken(&|pile| pile[RECORD + at::REQUEST] ^= 1), [false, true]);
        assert_eq!(broken(&|pile| pile[RECORD + at::REQUEST_LENGTH + 1] = 8), [false, true]);
        assert_eq!(broken(&|pile| pile[RECORD + at::RESPONSE_LENGTH + 1] = 8), [true, false]);
        assert_eq!(broken(&|pile| pile[RECORD + at::GAP] = 8), [true, true]);
    }

    #[test]
    fn a_link_takes_the_header_in() {
        let mut links = vec![Link::new(0, 1000, 5), Link::new(1, 1000, 5)];
        let first = making::chain(&links[..1]).pile;
        let message =
            &read(&first, &[1, 1]).unwrap()[0].record.packets().unwrap().1[packet::HEADER..];
        links[1].nonce = Some(hash::link(message, &links[1].rand));
        let made = making::chain(&links);
        assert_eq!(codes(&made), [0, 0]);
        assert!(!linked(&made.pile, 1));
    }

    #[test]
    fn only_the_first_rand_is_asked_for() {
        let Made { mut pile, .. } = good(2);
        assert!(first_rand_zero(&pile));
        assert!(!first_rand_zero(&pile[1..]) && !first_rand_zero(&[]));
        pile[at::RAND - 1] = 9;
        pile[at::REQUEST_LENGTH] = 9;
        pile[RECORD + at::RAND] ^= 9;
        assert!(first_rand_zero(&pile));
        for place in at::RAND..at::REQUEST_LENGTH {
            pile[place] = 1;
            assert!(!first_rand_zero(&pile), "byte {place}");
            pile[place] = 0;
        }
    }
}
