//! Which answers are spoilt on purpose, and how (draft 19, section 7): so that a client which does
//! not verify, or takes no other version or tag than it knows, is found out before it matters.

use crate::draw::Draw;
use crate::secret::Secret;
use crate::spoilt::{Spoiling, MANDATORY};
use crate::stop::Stop;
use trawlbeacon::SigningKey;

/// What the section names. A client must refuse all of them but the last.
#[derive(Clone, Copy, Debug, PartialEq, Eq)]
pub enum Form {
    /// An incorrect time, and a response's signature that does not verify.
    Time,
    /// An incorrect time, and a delegation's signature that does not verify.
    Delegation,
    /// A mandatory tag is not there.
    Missing,
    /// A version that is not in the request.
    Version,
    /// A tag that nobody has defined.
    Undefined,
}

impl Form {
    pub const ALL: [(&'static str, Form); 5] = [
        ("time", Form::Time),
        ("delegation", Form::Delegation),
        ("missing", Form::Missing),
        ("version", Form::Version),
        ("undefined", Form::Undefined),
    ];

    pub fn named(word: &str) -> Option<Form> {
        Form::ALL.iter().find(|(name, _)| *name == word).map(|(_, form)| *form)
    }
}

/// What an operator asks for.
#[derive(Clone, Debug, PartialEq, Eq)]
pub struct Greasing {
    /// One answer in so many.
    pub among: u64,
    /// The forms, in turn.
    pub forms: Vec<Form>,
}

pub struct Grease {
    greasing: Greasing,
    draw: Draw,
    /// How many were spoilt.
    turn: usize,
    /// The key that nobody delegates to.
    other: SigningKey,
}

impl Grease {
    pub fn new(greasing: Greasing) -> Result<Grease, Stop> {
        let (draw, other) = (Draw::new()?, Secret::random()?.signing_key());
        Ok(Grease { greasing, draw, turn: 0, other })
    }

    /// Whether the next answer is to be spoilt.
    pub fn chooses(&mut self) -> bool {
        self.draw.below(self.greasing.among.max(1)) == 0
    }

    /// What is sent in the place of a right answer, by the form whose turn it is; nothing where that
    /// would be longer than its request, or cannot be made.
    pub fn spoil(&mut self, spoiling: &Spoiling) -> Option<Vec<u8>> {
        let forms = &self.greasing.forms;
        let (form, round) = (*forms.get(self.turn % forms.len().max(1))?, self.turn / forms.len());
        self.turn += 1;
        let made = match form {
            Form::Time => spoiling.time(),
            Form::Delegation => spoiling.delegation(&self.other),
            Form::Missing => spoiling.missing(MANDATORY[round % MANDATORY.len()]),
            Form::Version => spoiling.version(&mut self.draw),
            Form::Undefined if round % 2 == 0 => spoiling.undefined(&mut self.draw),
            Form::Undefined => spoiling.undefined_signed(&mut self.draw),
        };
        made.filter(|made| made.len() <= spoiling.request.len())
    }
}

#[cfg(test)]
mod tests {
    use super::*;
    use crate::delegation::Delegation;
    use crate::long_term::LongTerm;
    use crate::pairs::Pairs;
    use crate::timekeeper::Told;
    use trawlbeacon::{check_signed, read_response, Refusal, Window, RESPONSE_CONTEXT};

    const TOLD: Told = Told { midp: 2000, radi: 3 };

    /// What a server of this form sends for one request after the other.
    struct Sent {
        key: [u8; 32],
        pubk: [u8; 32],
        sent: Vec<(Vec<u8>, Vec<u8>)>,
    }

    fn sent(form: Form, count: usize) -> Sent {
        let long_term = LongTerm::new().unwrap();
        let delegation = Delegation::new(&long_term, 1000, 90_000).unwrap();
        let (key, mut batch) = (delegation.seed.signing_key(), delegation.batch());
        let mut grease = Grease::new(Greasing { among: 1, forms: vec![form] }).unwrap();
        let mut request = [0; trawlbeacon::REQUEST_LENGTH];
        for number in 0..count {
            let nonce = [number as u8; 32];
            trawlbeacon::write_request(&long_term.public, &nonce, &mut request).unwrap();
            batch.push(&request).unwrap();
        }
        batch.answer(TOLD.midp, TOLD.radi).unwrap();
        let sent = batch.answers().map(|(place, answer)| {
            let request = batch.packet(place).unwrap();
            let (delegation, key, told) = (&delegation, &key, TOLD);
            let made = grease.spoil(&Spoiling { request, answer, delegation, key, told });
            (request.to_vec(), made.unwrap())
        });
        let sent = sent.collect();
        Sent { key: long_term.public, pubk: key.public_key(), sent }
    }

    impl Sent {
        /// What a client says of each.
        fn said(&self) -> Vec<Result<Window, Refusal>> {
            let said = |(request, answer): &(Vec<u8>, Vec<u8>)| {
                assert!(answer.len() <= request.len());
                let checked = check_signed(&self.key, request, answer);
                checked.map(|checked| checked.window).map_err(|why| why.refusal)
            };
            self.sent.iter().map(said).collect()
        }
    }

    fn refused(said: &[Result<Window, Refusal>], why: Refusal) -> bool {
        said.iter().all(|said| matches!(said, Err(refusal) if *refusal == why))
    }

    /// No client that takes the signatures for good finds anything else wrong with these.
    #[test]
    fn a_wrong_time_has_one_bad_signature() {
        for (form, why) in
            [(Form::Time, Refusal::Signature), (Form::Delegation, Refusal::Delegation)]
        {
            let sent = sent(form, 10);
            assert!(refused(&sent.said(), why));
            for (request, answer) in &sent.sent {
                assert_eq!(read_response(answer).unwrap().midp, 90_000);
                assert!(trawlbeacon::check_response(request, answer, true, true).is_ok());
            }
        }
    }

    #[test]
    fn each_mandatory_tag_is_missing_in_turn() {
        let sent = sent(Form::Missing, MANDATORY.len());
        assert!(refused(&sent.said(), Refusal::TagAbsent));
        for ((_, answer), tag) in sent.sent.iter().zip(MANDATORY) {
            let pairs = Pairs::of_packet(answer).unwrap();
            assert_eq!(read_response(answer).unwrap_err().refusal, Refusal::TagAbsent);
            let there = MANDATORY.iter().filter(|known| pairs.value(known).is_some());
            assert!(pairs.value(tag).is_none() && there.count() == 6);
        }
    }

    #[test]
    fn another_version_is_signed_and_refused() {
        let sent = sent(Form::Version, 10);
        assert!(refused(&sent.said(), Refusal::TypeOrVersion));
        for (_, answer) in &sent.sent {
            let pairs = Pairs::of_packet(answer).unwrap();
            let srep = pairs.value(b"SREP").unwrap();
            let signature = pairs.value(b"SIG\0").unwrap();
            let text = [RESPONSE_CONTEXT, srep].concat();
            assert!(trawlbeacon::verify(&sent.pubk, &text, signature));
            let srep = Pairs::of(srep).unwrap();
            assert_eq!(srep.value(b"MIDP"), Some(&TOLD.midp.to_le_bytes()[..]));
            assert!(srep.value(b"VER\0") == srep.value(b"VERS"));
            assert!(srep.value(b"VER\0").unwrap()[3] >= 0x80);
        }
    }

    #[test]
    fn an_undefined_tag_is_ignored() {
        let sent = sent(Form::Undefined, 50);
        for said in sent.said() {
            let window = said.expect("a client ignores what it does not know");
            assert_eq!((window.midp, window.radi), (TOLD.midp, TOLD.radi));
        }
        let tags = sent.sent.iter().map(|(_, answer)| answer[12]);
        let most: Vec<u8> = tags.collect();
        assert!(most.contains(&7) && most.contains(&8));
    }

    /// Whatever the form: a signature that leads to the long-term key is one of the true time.
    #[test]
    fn no_wrong_time_is_signed() {
        for (_, form) in Form::ALL {
            let sent = sent(form, 20);
            for (_, answer) in &sent.sent {
                let pairs = Pairs::of_packet(answer).unwrap();
                let parts = (pairs.value(b"SREP"), pairs.value(b"SIG\0"));
                let (Some(srep), Some(signature)) = parts else { continue };
                let text = [RESPONSE_CONTEXT, srep].concat();
                if trawlbeacon::verify(&sent.pubk, &text, signature) {
                    let midp = Pairs::of(srep).unwrap();
                    assert_eq!(midp.value(b"MIDP"), Some(&TOLD.midp.to_le_bytes()[..]));
                }
            }
        }
    }

    #[test]
    fn one_in_so_many() {
        let greasing = Greasing { among: 10, forms: vec![Form::Time] };
        let mut grease = Grease::new(greasing).unwrap();
        let chosen = (0..10_000).filter(|_| grease.chooses()).count();
        assert!((700..1300).contains(&chosen), "{chosen}");
    }
}
