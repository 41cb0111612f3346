//! Reports: piles that convict a server by themselves (draft 19, section 8.2; house rules), and the
//! cutter, which takes the shortest run of records out of a pile that does so.

use crate::pile::{self, Judge};
use crate::refusal::Refusal;
use crate::write;
use std::ops::RangeInclusive;

/// What is compared of a record: MIDP and RADI, and nothing else.
pub type Time = (u64, u32);

/// Whether the server that told `later` cannot be right where that of `earlier` is: the earlier
/// one's window lies wholly above the later one's. These are whole numbers, of which neither is cut
/// at the ends of time, as those of a window are.
pub fn contradicts(earlier: Time, later: Time) -> bool {
    i128::from(earlier.0) - i128::from(earlier.1) > i128::from(later.0) + i128::from(later.1)
}

/// What a record tells of the time, where it is valid.
pub(crate) fn time(record: impl Judge) -> Result<Time, Refusal> {
    record.judge().map(|valid| (valid.window.midp, valid.window.radi))
}

/// Why a pile is no report, and at which record, where it is for one.
#[derive(Clone, Copy, Debug, PartialEq, Eq)]
pub struct NoReport {
    /// Why.
    pub refusal: Refusal,
    /// The place of the record, counted from 0.
    pub place: Option<usize>,
}

impl NoReport {
    fn of(refusal: Refusal) -> Self {
        NoReport { refusal, place: None }
    }

    fn at(place: usize, refusal: Refusal) -> Self {
        NoReport { refusal, place: Some(place) }
    }
}

/// The places of the two records for which a pile is a report: of all pairs that contradict each
/// other the closest, and of equally close ones the first.
pub fn check(pile: &[u8], answers: &[u8]) -> Result<(usize, usize), NoReport> {
    check_records(pile, &pile::read(pile, answers).map_err(NoReport::of)?)
}

/// The same of the records of a pile, however each is judged.
pub(crate) fn check_records(
    pile: &[u8],
    records: &[impl Judge],
) -> Result<(usize, usize), NoReport> {
    let judged = records.iter().enumerate().map(|(place, record)| (place, time(*record)));
    let times: Result<Vec<Time>, _> = judged
        .map(|(place, verdict)| verdict.map_err(|refusal| NoReport::at(place, refusal)))
        .collect();
    let times = times?;
    if !pile::first_rand_zero(pile) {
        return Err(NoReport::at(0, Refusal::Link));
    }
    if let Some(before) = records.windows(2).position(|pair| !follows(pair)) {
        return Err(NoReport::at(before + 1, Refusal::Link));
    }
    closest_pair(&times).ok_or(NoReport::of(Refusal::NoContradiction))
}

/// Whether the second of two neighbours is linked to the first.
fn follows(pair: &[impl Judge]) -> bool {
    pair[1].record().follows(pair[0].record())
}

/// Any two of `count` places, the lower one first: the closest come first, and of equally close
/// ones the first.
fn pairs(count: usize) -> impl Iterator<Item = (usize, usize)> {
    (1..count).flat_map(move |apart| (0..count - apart).map(move |first| (first, first + apart)))
}

fn closest_pair(times: &[Time]) -> Option<(usize, usize)> {
    pairs(times.len()).find(|(first, second)| contradicts(times[*first], times[*second]))
}

/// What a run is chosen by: each record was checked once, and each link.
struct Evidence {
    /// What each record tells that is valid.
    times: Vec<Option<Time>>,
    /// Whether each record is linked to the one before it, which the first is to none.
    linked: Vec<bool>,
}

impl Evidence {
    fn gather(records: &[impl Judge]) -> Self {
        let links = records.windows(2).map(follows);
        Evidence {
            times: records.iter().map(|record| time(*record).ok()).collect(),
            linked: std::iter::once(false).chain(links).collect(),
        }
    }

    /// Whether these records would be a report, taken out and with the first one's rand set to
    /// zero.
    fn convict(&self, run: RangeInclusive<usize>) -> bool {
        let links = run.start() + 1..=*run.end();
        let times: Option<Vec<Time>> = self.times[run].iter().copied().collect();
        let linked = self.linked[links].iter().all(|linked| *linked);
        linked && times.map_or(false, |times| closest_pair(&times).is_some())
    }

    /// The shortest run that convicts, and of equally short ones the first. No record does so
    /// alone.
    fn run(&self) -> Option<(usize, usize)> {
        pairs(self.times.len()).find(|(first, last)| self.convict(*first..=*last))
    }
}

/// The places of the first and the last record of the run that the cutter takes.
pub fn run(pile: &[u8], answers: &[u8]) -> Result<(usize, usize), Refusal> {
    run_of(&pile::read(pile, answers)?)
}

/// The same of records, however each is judged.
pub(crate) fn run_of(records: &[impl Judge]) -> Result<(usize, usize), Refusal> {
    Evidence::gather(records).run().ok_or(Refusal::NoContradiction)
}

/// Writes that run at the front of `out`, which must have room for the whole pile, and tells its
/// places.
pub fn cut(pile: &[u8], answers: &[u8], out: &mut [u8]) -> Result<(usize, usize), Refusal> {
    cut_records(pile, &pile::read(pile, answers)?, out)
}

/// The same of the records of a pile, however each is judged.
pub(crate) fn cut_records(
    pile: &[u8],
    records: &[impl Judge],
    out: &mut [u8],
) -> Result<(usize, usize), Refusal> {
    if out.len() < pile.len() {
        return Err(Refusal::BufferTooShort);
    }
    let (first, last) = run_of(records)?;
    write::put(&pile[first * pile::RECORD..(last + 1) * pile::RECORD], out)?;
    out[pile::at::RAND..pile::at::REQUEST_LENGTH].fill(0);
    Ok((first, last))
}

#[cfg(test)]
mod tests {
    use super::*;
    use crate::making::{chain, pile_of, Link, Made};
    use crate::pile::{at, RECORD};

    /// The code and the place of a refused report.
    fn refused(Made { pile, answers }: &Made) -> (u32, Option<usize>) {
        check(pile, answers).map_or_else(
            |no| (no.refusal.code(), no.place),
            |pair| panic!("it is one, for {pair:?}"),
        )
    }

    /// The run that is cut out of a pile; the bytes are looked at as well.
    fn cut_from(Made { pile, answers }: &Made) -> Option<(usize, usize)> {
        let mut out = vec![0xee; pile.len() + 10];
        let answer = cut(pile, answers, &mut out);
        let length = answer.map_or(0, |(first, last)| (last + 1 - first) * RECORD);
        if let Ok((first, last)) = answer {
            let run = pile[first * RECORD..][..length].to_vec();
            assert_eq!(out[..at::RAND], run[..at::RAND]);
            assert_eq!(out[at::RAND..at::REQUEST_LENGTH], [0; 32]);
            assert_eq!(out[at::REQUEST_LENGTH..length], run[at::REQUEST_LENGTH..]);
            assert_eq!(
                check(&out[..length], &answers[2 * first..2 * last + 2]),
                Ok((0, last - first))
            );
        }
        assert!(out[length..].iter().all(|byte| *byte == 0xee));
        assert!(answer.is_ok() || answer == Err(Refusal::NoContradiction));
        answer.ok()
    }

    /// Examples 1 to 3 of the document.
    #[test]
    fn contradiction_is_in_whole_numbers() {
        for (earlier, later, due) in [
            ((1000, 5), (990, 5), false),
            ((1000, 5), (990, 4), true),
            ((990, 4), (1000, 5), false),
            ((3, 10), (0, 1), false),
            ((3, 10), (0, 0), false),
            ((10, 10), (0, 0), false),
            ((11, 10), (0, 0), true),
            ((u64::MAX, 0), (u64::MAX, 1), false),
            ((u64::MAX, 0), (u64::MAX - 1, 1), false),
            ((u64::MAX, 0), (u64::MAX - 2, 1), true),
            ((u64::MAX, u32::MAX), (u64::MAX, u32::MAX), false),
            ((0, u32::MAX), (0, 0), false),
        ] {
            assert_eq!(contradicts(earlier, later), due, "{earlier:?} then {later:?}");
        }
    }

    /// What the keys are, and when they may sign, is not asked.
    #[test]
    fn the_run_is_the_same_under_other_delegations() {
        let windows = [(1000, 10), (1500, 10), (1495, 1), (1400, 10)];
        let link = |(i, (midp, radi)): (usize, &(u64, u32))| Link {
            pubk: [i as u8; 32],
            mint: midp - i as u64,
            maxt: midp + 3 * i as u64,
            ..Link::new(i as u8, *midp, *radi)
        };
        let made = chain(&windows.iter().enumerate().map(link).collect::<Vec<_>>());
        assert_eq!(cut_from(&made), cut_from(&pile_of(&windows)));
        assert_eq!(cut_from(&made), Some((2, 3)));
    }

    /// Examples 5 to 7 of the document.
    #[test]
    fn the_shortest_run_is_cut_and_of_equals_the_first() {
        assert_eq!(
            cut_from(&pile_of(&[(1000, 10), (1500, 10), (1495, 1), (1400, 10)])),
            Some((2, 3))
        );
        assert_eq!(cut_from(&pile_of(&[(100, 1), (90, 1), (80, 1)])), Some((0, 1)));
        let mut apart = pile_of(&[(100, 1), (95, 20), (80, 1)]);
        assert_eq!(cut_from(&apart), Some((0, 2)));
        assert_eq!(check(&apart.pile, &apart.answers), Ok((0, 2)));
        apart.answers[3] = 0;
        assert_eq!(cut_from(&apart), None);
        assert_eq!(cut_from(&pile_of(&[(100, 1)])), None);
        assert_eq!(cut_from(&pile_of(&[(80, 1), (90, 1), (100, 1)])), None);
    }

    #[test]
    fn the_closest_pair_is_named_and_of_equals_the_first() {
        let named = |windows: &[(u64, u32)]| {
            let Made { pile, answers } = pile_of(windows);
            check(&pile, &answers).ok()
        };
        assert_eq!(named(&[(1000, 10), (1500, 10), (1495, 1), (1400, 10)]), Some((2, 3)));
        assert_eq!(named(&[(100, 1), (90, 1), (80, 1)]), Some((0, 1)));
        assert_eq!(named(&[(100, 1), (95, 20), (80, 1), (75, 20), (60, 1)]), Some((0, 2)));
        assert_eq!(named(&[(100, 1), (100, 1)]), None);
    }

    #[test]
    fn runs_beyond_a_bad_record_are_tried() {
        let mut made = pile_of(&[(500, 1), (400, 1), (100, 1), (90, 1), (80, 1)]);
        made.answers[2] = 0;
        assert_eq!(cut_from(&made), Some((2, 3)));
        // A record with a broken link can begin a run, but not go on with one.
        made.pile[3 * RECORD + at::RAND] ^= 1;
        assert_eq!(cut_from(&made), Some((3, 4)));
        made.pile[4 * RECORD + at::RAND] ^= 1;
        assert_eq!(cut_from(&made), None);
        made.answers[2] = 1;
        assert_eq!(cut_from(&made), Some((0, 1)));
    }

    /// Each rule is broken in turn, from the last to the first: the new damage counts.
    #[test]
    fn the_first_refusal_of_a_report_counts() {
        let mut made = pile_of(&[(80, 1), (90, 1), (100, 1)]);
        assert_eq!(refused(&made), (18, None));
        made.pile[2 * RECORD + at::RAND] ^= 1;
        assert_eq!(refused(&made), (17, Some(2)));
        made.pile[RECORD + at::RAND] ^= 1;
        assert_eq!(refused(&made), (17, Some(1)));
        made.pile[at::RAND] ^= 1;
        assert_eq!(refused(&made), (17, Some(0)));
        made.answers[5] = 0;
        assert_eq!(refused(&made), (13, Some(2)));
        made.pile[RECORD + at::GAP] = 1;
        assert_eq!(refused(&made), (16, Some(1)));
        made.answers[0] = 0;
        assert_eq!(refused(&made), (12, Some(0)));
        made.pile[at::REQUEST] ^= 1;
        assert_eq!(refused(&made), (14, Some(0)));
        made.pile[at::GAP] = 1;
        assert_eq!(refused(&made), (16, Some(0)));
        made.answers[5] = 2;
        assert_eq!(refused(&made), (15, None));
    }

    #[test]
    fn the_cutter_needs_room_for_the_whole_pile() {
        let mut made = pile_of(&[(100, 1), (90, 1), (80, 1)]);
        let mut out = vec![0xee; made.pile.len()];
        let mut code = |made: &Made, room: usize| {
            let code =
                cut(&made.pile, &made.answers, &mut out[..room]).map_or_else(Refusal::code, |_| 0);
            assert!(code == 0 || out.iter().all(|byte| *byte == 0xee));
            code
        };
        assert_eq!(code(&made, 3 * RECORD - 1), 19);
        made.answers[2] = 0;
        assert_eq!((code(&made, 3 * RECORD - 1), code(&made, 3 * RECORD)), (19, 18));
        made.answers[2] = 2;
        assert_eq!((code(&made, 0), code(&made, 3 * RECORD)), (15, 15));
        made.answers[2] = 1;
        assert_eq!(code(&made, 3 * RECORD), 0);
    }
}
