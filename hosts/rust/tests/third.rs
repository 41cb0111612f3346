//! Ed25519 with OpenSSL's as a third beside the proved library and the independent implementation.
//! OpenSSL takes keys that RFC 8032 refuses: those are counted by the step of 5.1.3 that refuses them,
//! as the independent implementation's decoding tells it, and nothing else may differ.

mod openssl;
mod support;

use independent::ed25519::Ed25519;
use independent::edwards::Undecoded;
use openssl::{by_the_parts, verifies};
use support::pairs::Pair;
use support::signed::{self, Case, Maker, DAMAGES};
use support::signing::{Servers, FORGERIES};
use support::Xorshift;
use trawlbeacon::Answers;

/// How many signatures are made, each asked of as it is and damaged in one way.
const SIGNATURES: usize = 4_000;

/// Where OpenSSL says yes and RFC 8032 no, by the step at which decoding the key fails.
#[derive(Default, Debug)]
struct Tally {
    compared: usize,
    verify: usize,
    key_past_p: usize,
    key_minus_zero: usize,
}

impl Tally {
    /// OpenSSL takes keys of 32 bytes and signatures of 64 alone, by its types here.
    fn compare(&mut self, ed25519: &Ed25519, case: &Case) {
        let Case { what, key, text, signature } = case;
        let key: Result<&[u8; 32], _> = key[..].try_into();
        let signature: Result<&[u8; 64], _> = signature[..].try_into();
        let (Ok(key), Ok(signature)) = (key, signature) else { return };
        let ours = trawlbeacon::verify(key, text, signature);
        let theirs = verifies(key, signature, text);
        self.compared += 1;
        self.verify += usize::from(ours);
        if ours == theirs {
            return;
        }
        let why = ed25519.curve().decode(key).err();
        match (theirs, why) {
            (true, Some(Undecoded::PastP)) => self.key_past_p += 1,
            (true, Some(Undecoded::MinusZero)) => self.key_minus_zero += 1,
            _ => panic!(
                "{what}: ours {ours}, OpenSSL {theirs}, the key {why:?}: {key:?} {signature:?}"
            ),
        }
    }
}

#[test]
fn openssl_agrees_but_on_keys_that_rfc_8032_refuses() {
    let mut random = Xorshift::new(0x5eed_0821);
    let maker = Maker::new(&mut random, 100);
    let mut tally = Tally::default();
    for i in 0..SIGNATURES {
        let good = maker.good(&mut random);
        tally.compare(&maker.ed25519, &good);
        let damaged = maker.damaged(&mut random, &good, i % DAMAGES.len());
        tally.compare(&maker.ed25519, &damaged);
    }
    assert_eq!((tally.key_past_p, tally.key_minus_zero), (0, 0), "no such key is made");
    println!(
        "{} signatures, of which {} verify: ours compared with OpenSSL",
        tally.compared, tally.verify
    );

    let mut tally = Tally::default();
    for case in signed::borders(&mut random) {
        tally.compare(&maker.ed25519, &case);
    }
    let Tally { compared, verify, key_past_p, key_minus_zero } = tally;
    println!(
        "{compared} signatures at borders, of which {verify} verify. OpenSSL verifies {} more, by keys \
         that RFC 8032, 5.1.3, refuses: {key_past_p} whose y is p or more, {key_minus_zero} whose x is 0 \
         with the sign 1",
        key_past_p + key_minus_zero,
    );
}

/// Responses that are signed by a server, or forged in each way: the library's own two answers are
/// those of a host that asks OpenSSL, and so is what the check says that verifies by itself.
#[test]
fn a_host_with_openssl_says_what_the_library_says_by_itself() {
    let mut random = Xorshift::new(0x5eed_0822);
    let servers = Servers::new(&mut random, 6);
    let mut compared = 0;
    for turn in 0..16 * FORGERIES.len() {
        let depth = random.below(33);
        let mut pair = Pair::random(&mut random, depth);
        let forgery = Some(FORGERIES[turn % FORGERIES.len()]);
        let forged = random.pick(&[[None, None], [forgery, None], [None, forgery]]);
        let key = servers.sign_as(&mut random, &mut pair, forged).key;
        let asked = pair.question();
        let (delegation, signature) = by_the_parts(&key, &asked.response);
        assert_eq!([delegation, signature], forged.map(|forged| forged.is_none()), "{forged:?}");
        let answers = trawlbeacon::answers(&key, &asked.response);
        assert_eq!(answers, Answers { delegation, signature }, "{forged:?}");
        let (request, response) = (&asked.request, &asked.response);
        assert_eq!(
            trawlbeacon::check_signed(&key, request, response),
            trawlbeacon::check_response(request, response, delegation, signature),
            "{forged:?}"
        );
        compared += 1;
    }
    println!("{compared} responses, signed or forged: ours by itself compared with OpenSSL");
}
