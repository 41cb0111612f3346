//! Responses checked by their own signatures, by the proved library and by the independent
//! implementation: every code, window, key and answer must be the same, and the same as the form
//! that takes answers says with those of the two verifiers.
//!
//! Every response is signed by a server's real keys, and then left as it is, forged in one of many
//! ways, damaged, or made to break another rule, so that it is known what must be said of it.

mod support;

use independent::appendix::{self, Entry};
use independent::edwards::Point;
use independent::{signed, text};
use support::answers::Bad;
use support::damage;
use support::packets::Level;
use support::pairs::{Pair, Question};
use support::signed_answers::Exchange;
use support::signing::{Forgery, Servers, FORGERIES};
use support::tally::Tally;
use support::{counted, shortest, Xorshift};
use trawlbeacon::Run;

const CHECKS: &str = "checks";
const ANSWERS: &str = "answers";

/// How many responses have each of the forgeries, of the delegation's signature and of the
/// response's.
const FORGED: usize = 40;

struct Comparison {
    tally: Tally,
    /// How often the two answers were 0 0, 0 1, 1 0 and 1 1.
    answers: Tally,
    random: Xorshift,
    servers: Servers,
}

impl Comparison {
    fn new() -> Self {
        let mut random = Xorshift::new(0x5eed_1101);
        let servers = Servers::new(&mut random, 12);
        let (tally, answers) = (Tally::new(&[CHECKS]), Tally::new(&[ANSWERS]));
        Comparison { tally, answers, random, servers }
    }

    /// Any depth of the path, the deepest and none now and then.
    fn pair(&mut self) -> Pair {
        let any = self.random.below(33);
        let depth = self.random.pick(&[0, any, any, 32]);
        Pair::random(&mut self.random, depth)
    }

    /// Signs a pair as its answers say.
    fn sign(&mut self, pair: &mut Pair) -> Exchange {
        let key = self.servers.sign(&mut self.random, pair).key;
        exchange(key, pair)
    }

    /// Asks all there is to ask about an exchange. `due` and `answers` are what must be said, where
    /// that is known.
    fn ask(&mut self, exchange: &Exchange, due: Option<u32>, answers: Option<[bool; 2]>) {
        let ed25519 = &self.servers.ed25519;
        let both = exchange.check(ed25519);
        self.tally.answer(CHECKS, &both, due, || exchange.show());
        let answered = exchange.answers(ed25519);
        let [delegation, signature] = answered.ours.map(u32::from);
        self.answers.count(ANSWERS, 10 * delegation + signature);
        let right = answered.ours == answered.independent
            && answers.map_or(true, |answers| answers == answered.ours);
        if !right {
            let (ours, independent) = (answered.ours, answered.independent);
            self.tally.differs(format!(
                "answers: {ours:?}, independent {independent:?}, due {answers:?} for {}",
                exchange.show()
            ));
        }
        for answers in [answered.ours, answered.independent] {
            if exchange.given(answers) != both.ours {
                self.tally.differs(format!("not as with {answers:?}: {}", exchange.show()));
            }
        }
        if let Some(wrong) = exchange.unseen_fields(&both.ours, answered.ours) {
            self.tally.differs(format!("{wrong}\n  for {}", exchange.show()));
        }
    }

    /// A pair whose two signatures are as it says, and that breaks no other rule.
    fn ask_signed(&mut self, mut pair: Pair) {
        let (answers, exchange) = ([pair.delegation, pair.signature], self.sign(&mut pair));
        let due = first_of(answers);
        self.ask(&exchange, Some(due), Some(answers));
        if due == 0 && exchange.given(answers) != Ok(pair.checked()) {
            self.tally.differs(format!("not {:?}: {}", pair.checked(), exchange.show()));
        }
    }
}

/// What these two answers lead to.
fn first_of(answers: [bool; 2]) -> u32 {
    match answers {
        [false, _] => 12,
        [true, false] => 13,
        [true, true] => 0,
    }
}

fn exchange(key: [u8; 32], pair: &Pair) -> Exchange {
    let Question { request, response, .. } = pair.question();
    Exchange { key, request, response }
}

/// Valid pairs in every shape, and pairs with both signatures forged.
fn right_and_wrong(seen: &mut Comparison) {
    for _ in 0..600 {
        let pair = seen.pair();
        seen.ask_signed(pair);
    }
    for _ in 0..150 {
        let pair = Pair { delegation: false, signature: false, ..seen.pair() };
        seen.ask_signed(pair);
    }
}

/// Each forgery of each signature, beside a right one.
fn each_forgery(seen: &mut Comparison) {
    for forgery in FORGERIES {
        for (forged, due) in [([Some(forgery), None], 12), ([None, Some(forgery)], 13)] {
            for _ in 0..FORGED {
                let mut pair = seen.pair();
                let signed = seen.servers.sign_as(&mut seen.random, &mut pair, forged);
                assert_eq!(signed.forged, forged);
                let answers = forged.map(|forged| forged.is_none());
                seen.ask(&exchange(signed.key, &pair), Some(due), Some(answers));
            }
        }
    }
}

/// Each other rule broken before the server signed, so that both signatures verify, or not.
fn other_rules(seen: &mut Comparison) {
    for rule in [8, 9, 10, 11] {
        for _ in 0..130 {
            let mut pair = seen.pair();
            pair.break_rule(&mut seen.random, rule);
            pair.delegation = !seen.random.once_in(4);
            pair.signature = !seen.random.once_in(4);
            let answers = [pair.delegation, pair.signature];
            let exchange = seen.sign(&mut pair);
            seen.ask(&exchange, Some(rule), Some(answers));
        }
    }
}

/// A bad request, whatever the response is.
fn bad_requests(seen: &mut Comparison) {
    for _ in 0..130 {
        let mut pair = seen.pair();
        pair.signature = !seen.random.once_in(4);
        let answers = [true, pair.signature];
        let mut exchange = seen.sign(&mut pair);
        exchange.request = damage::bad_request(&mut seen.random, &pair.request);
        seen.ask(&exchange, Some(14), Some(answers));
    }
}

/// Responses that were damaged after they were signed. With codes 1 to 7 no signature is read, and
/// both answers are a no.
fn bad_responses(seen: &mut Comparison) {
    let mut pairs = Vec::new();
    for _ in 0..40 {
        let mut pair = seen.pair();
        let key = seen.servers.sign(&mut seen.random, &mut pair).key;
        pairs.push((key, pair));
    }
    for _ in 0..2_400 {
        let at = seen.random.below(pairs.len());
        let (key, pair) = &pairs[at];
        let damaged = damage::bad_response(&mut seen.random, &pair.response);
        let request = pair.request.packet();
        let exchange = Exchange { key: *key, request, response: damaged.packet };
        let due = damage::first_code(&damaged.done);
        let unread = (1..=7).contains(&due).then_some([false, false]);
        seen.ask(&exchange, Some(due), unread);
    }
}

/// A bit turned anywhere: in the key, in the request or in the response. What comes of it is for
/// the two sides to say.
fn turned(seen: &mut Comparison) {
    for i in 0..400 {
        let mut pair = seen.pair();
        let mut exchange = seen.sign(&mut pair);
        let bytes = match i % 4 {
            0 => &mut exchange.key[..],
            1 => &mut exchange.request,
            _ => &mut exchange.response,
        };
        let bit = seen.random.below(8 * bytes.len());
        bytes[bit / 8] ^= 1 << (bit % 8);
        seen.ask(&exchange, None, None);
    }
}

/// Bytes that nobody meant anything by, in the place of either packet.
fn noise(seen: &mut Comparison) {
    for i in 0..200 {
        let mut pair = seen.pair();
        let mut exchange = exchange(seen.random.array(), &pair);
        if i % 2 == 0 {
            exchange = seen.sign(&mut pair);
        }
        let length = seen.random.below(2_100);
        let bytes = seen.random.bytes(length);
        match i % 4 {
            0 | 1 => exchange.response = bytes,
            _ => exchange.request = bytes,
        }
        seen.ask(&exchange, None, None);
    }
}

#[test]
fn both_sides_say_the_same_of_signed_responses() {
    let mut seen = Comparison::new();
    right_and_wrong(&mut seen);
    each_forgery(&mut seen);
    other_rules(&mut seen);
    bad_requests(&mut seen);
    bad_responses(&mut seen);
    turned(&mut seen);
    noise(&mut seen);
    println!(
        "{} responses with real signatures, ours compared with independent; how often each code \
         was given:\n{}",
        seen.tally.answers(),
        seen.tally.table("code")
    );
    println!("the two answers, delegation and response:\n{}", seen.answers.table("answer"));
    seen.tally.no_difference();
    seen.tally.at_least(100, CHECKS, 0..=14);
    seen.answers.at_least(300, ANSWERS, [0, 1, 10, 11]);
    counted(seen.tally.answers(), "responses by their own signatures");
}

/// Keys of small order: by RFC 8032, whose equation needs no cofactor here, the neutral point as key
/// and as R verifies every text with S = 0. Nobody owns such a key; both sides say the same of it.
#[test]
fn keys_of_small_order() {
    let mut seen = Comparison::new();
    let neutral = Point::NEUTRAL.encode();
    let anything = [neutral, [0; 32]].concat();
    for _ in 0..20 {
        let mut pair = seen.pair();
        let key = seen.servers.sign(&mut seen.random, &mut pair).key;
        // PUBK is put in after DELE was signed, so that its signature is wrong.
        pair.response.pubk = neutral;
        pair.response.sig = anything.clone();
        seen.ask(&exchange(key, &pair), Some(12), Some([false, true]));
        pair.response.cert_sig = anything.clone();
        seen.ask(&exchange(key, &pair), Some(12), Some([false, true]));
        seen.ask(&exchange(neutral, &pair), Some(0), Some([true, true]));
    }
    seen.tally.no_difference();
}

/// A host that takes a key or a signature from the place where it usually stands is deceived by a
/// response that moves it; the form that verifies reads them by their tags. Here a tag that nobody
/// knows moves everything, and the usual places hold what a forger likes.
#[test]
fn unknown_tags_move_what_is_verified() {
    let mut seen = Comparison::new();
    for _ in 0..60 {
        let mut pair = seen.pair();
        for level in [Level::Outer, Level::Srep, Level::Cert, Level::Dele] {
            let others = &mut pair.response.others[level as usize];
            *others = vec![(0, seen.random.bytes(8)), (1, seen.random.bytes(64))];
        }
        pair.response.trim();
        seen.ask_signed(pair);
    }
    seen.tally.no_difference();
}

/// Draft 19's appendix B, which neither side made, by its own six signatures.
#[test]
fn draft_19_appendix_b() {
    let seen = Comparison::new();
    let ed25519 = &seen.servers.ed25519;
    let entries = appendix::entries();
    for (index, Entry { key, request, response, .. }) in entries.iter().enumerate() {
        let exchange = Exchange { key: *key, request: request.clone(), response: response.clone() };
        let both = exchange.check(ed25519);
        assert!(both.ours.is_ok() && both.ours == both.independent, "entry {index}");
        assert_eq!(both.ours, exchange.given([true, true]), "entry {index}");
        assert_eq!(exchange.answers(ed25519).ours, [true, true], "entry {index}");
        for other in entries.iter().filter(|other| other.key != *key) {
            let exchange = Exchange { key: other.key, ..exchange.clone() };
            let both = exchange.check(ed25519);
            let due = Err(Bad { code: 12, at: None });
            assert_eq!((both.ours, both.independent), (due, due), "another server's key");
        }
    }
    let pile = appendix::pile().pile;
    let pair = trawlbeacon::check_signed_report(&pile).map(|pair| (pair.first, pair.second));
    assert_eq!(pair, Ok((0, 1)));
    assert_eq!(signed::check_report(ed25519, &pile), Ok((0, 1)));
    let cut = trawlbeacon::cut_signed(&pile).expect("two records contradict each other");
    assert_eq!(cut.run, Run { first: 0, last: 1 });
    assert_eq!(signed::run(ed25519, &pile), Ok((0, 1)));
    println!("draft 19, appendix B: a report by its own 6 signatures, of which run 0 1 is cut");
}

/// Both texts with each other's contexts, of one length or not, and with none: only the right one
/// verifies.
#[test]
fn a_signature_is_of_its_own_context() {
    assert_eq!((text::DELEGATION.len(), text::RESPONSE.len()), (34, 32));
    let mut seen = Comparison::new();
    for how in [Forgery::NoContext, Forgery::NoZeroByte, Forgery::OtherContext] {
        let mut pair = seen.pair();
        let forged = [Some(how), Some(how)];
        let key = seen.servers.sign_as(&mut seen.random, &mut pair, forged).key;
        seen.ask(&exchange(key, &pair), Some(12), Some([false, false]));
    }
    seen.tally.no_difference();
}

/// A response that is refused for something cheaper costs no verification, and one whose delegation
/// is forged costs one and not two: by how much longer each takes than with the answers given, which
/// hashes as much and verifies nothing, as a part of a valid one's.
#[test]
fn nothing_is_verified_where_something_cheaper_refuses() {
    let mut seen = Comparison::new();
    let mut parts = Vec::new();
    for code in [0, 14, 7, 8, 9, 10, 11, 12, 13] {
        let mut pair = Pair::random(&mut seen.random, 32);
        let mut forged = [None, None];
        match code {
            8..=11 => pair.break_rule(&mut seen.random, code),
            // What was signed is another text, so that the whole equation is worked out.
            12 => forged[0] = Some(Forgery::BitOfValue),
            13 => forged[1] = Some(Forgery::BitOfValue),
            _ => (),
        }
        let key = seen.servers.sign_as(&mut seen.random, &mut pair, forged).key;
        let mut asked = exchange(key, &pair);
        match code {
            14 => asked.request[0] ^= 1,
            7 => {
                pair.response.radi = 0;
                asked = exchange(key, &pair);
            }
            _ => (),
        }
        let Exchange { key, request, response } = &asked;
        let told = trawlbeacon::check_signed(key, request, response);
        assert_eq!(told.map_or_else(|why| why.code(), |_| 0), code);
        let [delegation, signature] = [code != 12, code != 13];
        let verified = shortest(|| trawlbeacon::check_signed(key, request, response));
        let given =
            shortest(|| trawlbeacon::check_response(request, response, delegation, signature));
        parts.push((code, verified.as_secs_f64() - given.as_secs_f64()));
    }
    let valid = parts[0].1;
    println!(
        "the time of the signatures in a check, as a part of {:.0} µs, a valid one's:",
        valid * 1e6
    );
    for (code, time) in &parts[1..] {
        let part = time / valid;
        println!("  refused with {code:>2}: {part:.3}");
        match code {
            12 => assert!((0.2..0.8).contains(&part), "one signature is verified: {part}"),
            13 => assert!(part > 0.7, "two signatures are verified: {part}"),
            _ => assert!(part < 0.1, "no signature is verified: {part}"),
        }
    }
}
