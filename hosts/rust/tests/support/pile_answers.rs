//! Questions about piles, put to both sides, and about the fields that no answer shows.

use super::answers::{self, placed, Answer, Bad, Both, Said, Written};
use super::pairs::same_checked;
use independent::check;
use independent::pile::Judge;
use independent::place::Place;
use independent::refusal::Refusal;
use independent::{pairs, pile, report};
use trawlbeacon::{raw, Checked, Pair, Run};

/// That a pile is one passes without another word.
impl Said for () {
    fn say(&self) -> String {
        "a pile".into()
    }
}

impl Said for Run {
    fn say(&self) -> String {
        format!("run {} {}", self.first, self.last)
    }
}

/// What a report check answers: the pair, or a code, its record and its byte.
#[derive(Clone, Copy, Debug, PartialEq, Eq)]
pub struct Reported(pub Result<(usize, usize), (u32, Option<usize>, Option<usize>)>);

impl Answer for Reported {
    fn code(&self) -> u32 {
        self.0.map_or_else(|refused| refused.0, |_| 0)
    }

    fn show(&self) -> String {
        match self.0 {
            Ok((first, second)) => format!("pair {first} {second}"),
            Err((code, place, at)) => format!("code {code} place {place:?} byte {at:?}"),
        }
    }
}

/// What a pile is asked about, with its answers.
#[derive(Clone, Copy)]
pub struct Asked<'a> {
    pub pile: &'a [u8],
    pub answers: &'a [u8],
}

/// What the independent side says of each record.
pub type Judged = Result<Vec<Result<check::Valid, Refusal>>, Refusal>;

impl Asked<'_> {
    pub fn code(self) -> Both<Result<(), Bad>> {
        Both {
            ours: trawlbeacon::pile_code(self.pile, self.answers).map_err(Bad::from),
            independent: pile::read(self.pile, self.answers)
                .map(drop)
                .map_err(|refusal| placed(refusal, None)),
        }
    }

    /// The independent side judges all records at once.
    pub fn judged(self) -> Judged {
        pile::judge_all(self.pile, self.answers)
    }

    /// What is said of the record at `place`, where the independent side said `judged`. Where there
    /// is no such record, code 15 is due.
    pub fn judge(self, place: usize, judged: &Judged) -> Both<Result<Checked, Bad>> {
        let independent = match judged {
            Ok(judged) => judged.get(place).copied().unwrap_or(Err(Refusal::Pile)),
            Err(refusal) => Err(*refusal),
        };
        Both {
            ours: trawlbeacon::judge(self.pile, self.answers, place).map_err(Bad::from),
            independent: independent
                .map(same_checked)
                .map_err(|refusal| placed(refusal, self.place(place))),
        }
    }

    /// Where the independent side finds the response of a record bad.
    fn place(self, record: usize) -> Option<Place> {
        pile::read(self.pile, self.answers).ok()?.get(record)?.place()
    }

    pub fn linked(self, place: usize) -> Both<bool> {
        Both {
            ours: trawlbeacon::linked(self.pile, place),
            independent: pile::linked(self.pile, place),
        }
    }

    pub fn first_rand_zero(self) -> Both<bool> {
        Both {
            ours: trawlbeacon::first_rand_zero(self.pile),
            independent: pile::first_rand_zero(self.pile),
        }
    }

    /// Whether two of its valid records contradict each other.
    pub fn contradiction(self) -> Both<Result<(), Bad>> {
        Both {
            ours: trawlbeacon::pile_contradicts(self.pile, self.answers).map_err(Bad::from),
            independent: pairs::in_pile(self.pile, self.answers)
                .map_err(|refusal| placed(refusal, None)),
        }
    }

    pub fn report(self) -> Both<Reported> {
        let ours = trawlbeacon::check_report(self.pile, self.answers);
        let independent = report::check(self.pile, self.answers);
        Both {
            ours: Reported(
                ours.map(|Pair { first, second }| (first, second))
                    .map_err(|no| (no.refusal.code(), no.place, no.at)),
            ),
            independent: Reported(independent.map_err(|no| {
                let place = no.place.and_then(|record| self.place(record));
                (no.refusal.code(), no.place, placed(no.refusal, place).at)
            })),
        }
    }

    pub fn cut(self, buffer: &[u8]) -> Both<Written<Run>> {
        answers::write_both(
            buffer,
            None,
            |out| trawlbeacon::cut_run(self.pile, self.answers, out),
            |out| {
                report::cut(self.pile, self.answers, out).map(|(first, last)| Run { first, last })
            },
        )
    }

    /// What is wrong with the fields that the functions of hosts/rust do not show, or not whole:
    /// all but the code and the place must be 0 where a call is refused, and the place too where no
    /// record is at fault.
    pub fn unseen_fields(self, place: usize, out: &mut [u8]) -> Option<String> {
        let ((start, n), (start_too, m)) =
            ((self.pile.as_ptr(), self.pile.len()), (self.answers.as_ptr(), self.answers.len()));
        // SAFETY: the library only reads the pile and its answers, and only writes `out`.
        let (judged, reported, cut) = unsafe {
            (
                raw::tb_judge(start, raw::size(n), start_too, raw::size(m), raw::size(place)),
                raw::tb_check_report(start, raw::size(n), start_too, raw::size(m)),
                raw::tb_cut_run(
                    start,
                    raw::size(n),
                    start_too,
                    raw::size(m),
                    out.as_mut_ptr(),
                    raw::size(out.len()),
                ),
            )
        };
        let raw::tb_judged { midp, radi, low, high, mint, maxt, pubk, .. } = judged;
        let no_window = [midp, radi.into(), low, high, mint, maxt] == [0; 6] && pubk == [0; 32];
        let no_pair = (reported.first, reported.second) == (0, 0);
        let of_a_record = !matches!(reported.code, 0 | 15 | 18);
        let right = judged.place == place as u64
            && (judged.code == 0 || no_window)
            && (reported.code == 0 || no_pair)
            && (of_a_record || reported.place == 0)
            && !answers::unplaced(judged.code, judged.at)
            && !answers::unplaced(reported.code, reported.at)
            && (cut.code == 0 || (cut.first, cut.last) == (0, 0));
        (!right).then(|| format!("place {place}: {judged:?}, {reported:?}, {cut:?}"))
    }
}
