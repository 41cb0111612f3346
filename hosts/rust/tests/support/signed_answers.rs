//! Questions about responses and piles that are judged by their own signatures, put to both sides,
//! and to our forms that take answers.

use super::answers::{self, placed, Bad, Both, Written};
use super::hex;
use super::pairs::{same_checked, whole};
use super::pile_answers::{Asked, Reported};
use independent::ed25519::Ed25519;
use independent::pile::{self, Judge};
use independent::{place, signed};
use trawlbeacon::{raw, Answers, Checked, Pair, Run};

/// A response with its request and the long-term key that is lent.
#[derive(Clone)]
pub struct Exchange {
    pub key: [u8; 32],
    pub request: Vec<u8>,
    pub response: Vec<u8>,
}

impl Exchange {
    pub fn check(&self, ed25519: &Ed25519) -> Both<Result<Checked, Bad>> {
        let Exchange { key, request, response } = self;
        let independent = signed::check(ed25519, key, request, response);
        Both {
            ours: trawlbeacon::check_signed(key, request, response).map_err(Bad::from),
            independent: independent
                .map(same_checked)
                .map_err(|refusal| placed(refusal, place::in_response(response))),
        }
    }

    pub fn answers(&self, ed25519: &Ed25519) -> Both<[bool; 2]> {
        let Answers { delegation, signature } = trawlbeacon::answers(&self.key, &self.response);
        Both {
            ours: [delegation, signature],
            independent: signed::answers(ed25519, &self.key, &self.response),
        }
    }

    /// What our form says that takes answers, given these.
    pub fn given(&self, [delegation, signature]: [bool; 2]) -> Result<Checked, Bad> {
        let Exchange { request, response, .. } = self;
        trawlbeacon::check_response(request, response, delegation, signature).map_err(Bad::from)
    }

    /// What is wrong with the fields and bytes that hosts/rust does not show, or not whole.
    pub fn unseen_fields(&self, told: &Result<Checked, Bad>, answers: [bool; 2]) -> Option<String> {
        let Exchange { key, request, response } = self;
        let (asked, answered) = (request.as_ptr(), response.as_ptr());
        let mut out = [0xee; 2];
        // SAFETY: the library only reads the key and both packets, and only writes `out`.
        let verdict = unsafe {
            raw::tb_answers(key, answered, raw::size(response.len()), &mut out);
            raw::tb_check_signed(
                key,
                asked,
                raw::size(request.len()),
                answered,
                raw::size(response.len()),
            )
        };
        let right = verdict == whole(told) && out == answers.map(u8::from);
        (!right).then(|| format!("tb_check_signed answered {verdict:?}, and tb_answers {out:?}"))
    }

    pub fn show(&self) -> String {
        let [key, request, response] = [&self.key[..], &self.request, &self.response].map(hex);
        format!("key {key}\n  request {request}\n  response {response}")
    }
}

/// A pile that is judged by its own signatures.
#[derive(Clone, Copy)]
pub struct Alone<'a> {
    pub pile: &'a [u8],
    pub ed25519: &'a Ed25519,
}

impl Alone<'_> {
    /// The answers about each record, by both sides; none where it is no pile. A record without two
    /// packets is refused whatever is answered.
    pub fn answers(self) -> Both<Vec<u8>> {
        let of = |record: &pile::Record| match record.packets() {
            Ok((_, response)) => {
                let Answers { delegation, signature } =
                    trawlbeacon::answers(record.key(), response);
                [u8::from(delegation), u8::from(signature)]
            }
            Err(_) => [0, 0],
        };
        let records = pile::records(self.pile).unwrap_or_default();
        Both {
            ours: records.iter().flat_map(of).collect(),
            independent: signed::all_answers(self.ed25519, self.pile).unwrap_or_default(),
        }
    }

    /// What is said of every record, and of the place behind them.
    pub fn judged(self) -> Vec<Both<Result<Checked, Bad>>> {
        let records = signed::read(self.ed25519, self.pile);
        let count = records.as_ref().map_or(0, Vec::len);
        let independent = |place: usize| match &records {
            Err(refusal) => Err(placed(*refusal, None)),
            Ok(records) => match records.get(place) {
                None => Err(Bad { code: 15, at: None }),
                Some(record) => record
                    .judge()
                    .map(same_checked)
                    .map_err(|refusal| placed(refusal, record.place())),
            },
        };
        (0..=count)
            .map(|place| Both {
                ours: trawlbeacon::judge_signed(self.pile, place).map_err(Bad::from),
                independent: independent(place),
            })
            .collect()
    }

    pub fn report(self) -> Both<Reported> {
        let ours = trawlbeacon::check_signed_report(self.pile);
        let independent = signed::check_report(self.ed25519, self.pile);
        let at =
            |place: Option<usize>| signed::read(self.ed25519, self.pile).ok()?.get(place?)?.place();
        Both {
            ours: Reported(
                ours.map(|Pair { first, second }| (first, second))
                    .map_err(|no| (no.refusal.code(), no.place, no.at)),
            ),
            independent: Reported(
                independent.map_err(|no| {
                    (no.refusal.code(), no.place, placed(no.refusal, at(no.place)).at)
                }),
            ),
        }
    }

    pub fn cut(self, buffer: &[u8]) -> Both<Written<Run>> {
        answers::write_both(
            buffer,
            None,
            |out| trawlbeacon::cut_signed_run(self.pile, out),
            |out| {
                signed::cut(self.ed25519, self.pile, out).map(|(first, last)| Run { first, last })
            },
        )
    }

    /// The first of our forms that take answers that says something else, given these, than the
    /// forms here did.
    pub fn differs_given(
        self,
        answers: &[u8],
        judged: &[Both<Result<Checked, Bad>>],
        report: Reported,
        cut: (&[u8], &Written<Run>),
    ) -> Option<String> {
        let asked = Asked { pile: self.pile, answers };
        for (place, both) in judged.iter().enumerate() {
            let given = trawlbeacon::judge(self.pile, answers, place).map_err(Bad::from);
            if given != both.ours {
                return Some(format!("record {place}: {given:?} with answers, {:?}", both.ours));
            }
        }
        let given = asked.report().ours;
        if given != report {
            return Some(format!("report: {given:?} with answers, {report:?}"));
        }
        let (before, cut) = cut;
        let given = asked.cut(before).ours;
        (given != *cut).then(|| "the cutter, or what it left".into())
    }

    /// What is wrong with the fields that the functions of hosts/rust do not show, or not whole:
    /// all of them must be those of the forms that take answers.
    pub fn unseen_fields(self, answers: &[u8], place: usize, room: usize) -> Option<String> {
        let (start, n) = (self.pile.as_ptr(), self.pile.len());
        let (told, m) = (answers.as_ptr(), answers.len());
        let (mut out, mut out_too) = (vec![0xee; room], vec![0xee; room]);
        let (to, to_too) = (out.as_mut_ptr(), out_too.as_mut_ptr());
        // SAFETY: the library only reads the pile and its answers, and only writes its buffer.
        let (alone, given) = unsafe {
            (
                (
                    raw::tb_judge_signed(start, raw::size(n), raw::size(place)),
                    raw::tb_check_signed_report(start, raw::size(n)),
                    raw::tb_cut_signed_run(start, raw::size(n), to, raw::size(room)),
                ),
                (
                    raw::tb_judge(start, raw::size(n), told, raw::size(m), raw::size(place)),
                    raw::tb_check_report(start, raw::size(n), told, raw::size(m)),
                    raw::tb_cut_run(
                        start,
                        raw::size(n),
                        told,
                        raw::size(m),
                        to_too,
                        raw::size(room),
                    ),
                ),
            )
        };
        (alone != given || out != out_too).then(|| format!("place {place}: {alone:?}, {given:?}"))
    }
}
