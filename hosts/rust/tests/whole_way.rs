//! The whole way of the evidence: walks over servers that sign with real keys, some of which lie.
//! What such a walk saw convicts at whoever reads its report: written as JSON, read, judged by its
//! own signatures, cut and written again, by the proved library, and read and judged by the
//! independent implementation too.

mod support;

use independent::ed25519::{Ed25519, Secret};
use independent::{report_text, signed};
use support::Xorshift;
use trawlbeacon::{
    answers, check_signed_report, contradicts, cut_signed_text, leaf, read_report, response_length,
    write_cert, write_dele, write_response, write_signed_report, write_srep, Answers, Heard,
    Outcome, Pair, Refusal, Reply, Walk, CERT_LENGTH, DELEGATION_CONTEXT, DELE_LENGTH,
    LONGEST_REPORT, MOST_PILE_LENGTH, RECORD_LENGTH, RESPONSE_CONTEXT, SREP_LENGTH,
};

const WALKS: usize = 300;

/// When the first walk begins, in seconds since 1970.
const NOW: u64 = 1_700_000_000;

/// MIDP and RADI.
type Window = (u64, u32);

/// A server, with the CERT that its long-term key signed.
struct Server {
    key: [u8; 32],
    delegated: Secret,
    cert: [u8; CERT_LENGTH],
}

impl Server {
    fn new(random: &mut Xorshift, ed25519: &Ed25519) -> Self {
        let long_term = ed25519.secret(&random.array());
        let delegated = ed25519.secret(&random.array());
        let (pubk, mint, maxt) = (&delegated.public, NOW - 100_000, NOW + 100_000);
        let (mut dele, mut cert) = ([0; DELE_LENGTH], [0; CERT_LENGTH]);
        write_dele(pubk, mint, maxt, &mut dele).expect("it has room");
        let signature = ed25519.sign(&long_term, &[&DELEGATION_CONTEXT[..], &dele].concat());
        write_cert(pubk, mint, maxt, &signature, &mut cert).expect("it has room");
        Server { key: long_term.public, delegated, cert }
    }

    fn answer(&self, ed25519: &Ed25519, request: &[u8], (midp, radi): Window) -> Vec<u8> {
        let (root, mut srep) = (leaf(request), [0; SREP_LENGTH]);
        write_srep(&root, midp, radi, &mut srep).expect("it has room");
        let signature = ed25519.sign(&self.delegated, &[&RESPONSE_CONTEXT[..], &srep].concat());
        let (root, cert, signature) = (&root, &self.cert[..], &signature);
        let reply = Reply { request, indx: 0, root, path: &[], midp, radi, cert, signature };
        let mut out = vec![0; response_length(0, CERT_LENGTH)];
        write_response(&reply, &mut out).expect("the request is good");
        out
    }
}

/// A window that has this moment in it, or, told by a liar, one that is far from it.
fn told(random: &mut Xorshift, moment: u64, lie: bool) -> Window {
    let radi = 1 + random.below(5);
    let midp = moment + random.below(radi) as u64;
    let far = 20 + random.below(1_000) as u64;
    let midp = match (lie, random.once_in(2)) {
        (false, _) => midp,
        (true, false) => midp + far,
        (true, true) => midp - far,
    };
    (midp, u32::try_from(radi).expect("it is small"))
}

/// What a walk over these servers saw, and what it said at its end.
struct Seen {
    windows: Vec<Window>,
    outcome: Outcome,
    pile: Vec<u8>,
}

fn walked(random: &mut Xorshift, ed25519: &Ed25519, servers: &[Server]) -> Seen {
    let keys: Vec<[u8; 32]> = servers.iter().map(|server| server.key).collect();
    let mut walk = Walk::start(&keys, &random.array(), 10).expect("3 to 8 servers");
    let liar = random.below(2 * servers.len());
    let (mut moment, mut windows, mut outcome) = (NOW, Vec::new(), Outcome::GoesOn);
    while outcome == Outcome::GoesOn {
        let asked = walk.ask().expect("it goes on");
        let lie = asked.server == liar && random.once_in(2);
        let (window, rand) = (told(random, moment, lie), random.array());
        let mut take = |server: &Server| {
            let response = server.answer(ed25519, &asked.request, window);
            let Answers { delegation, signature } = answers(&keys[asked.server], &response);
            let heard = Heard { delegation, signature, sent: moment, received: moment + 1, rand };
            walk.take(&response, &heard)
        };
        if random.once_in(4) {
            // Another server's answer: its delegation does not verify under the key of this one.
            let refused = take(&servers[(asked.server + 1) % servers.len()]);
            assert_eq!(refused.unwrap_err().refusal, Refusal::Delegation);
        }
        let taken = take(&servers[asked.server]).expect("a right answer");
        assert_eq!((taken.window.midp, taken.window.radi), window);
        outcome = taken.outcome;
        windows.push(window);
        moment += 1 + random.below(5) as u64;
    }
    Seen { windows, outcome, pile: walk.pile().to_vec() }
}

/// The record at this place.
fn record(pile: &[u8], place: usize) -> &[u8] {
    &pile[place * RECORD_LENGTH..][..RECORD_LENGTH]
}

/// The pile that a text brings to whoever reads it, and which is accepted there.
fn arrives(ed25519: &Ed25519, text: &[u8], pair: Pair) -> Vec<u8> {
    let mut room = vec![0xee; MOST_PILE_LENGTH];
    let records = read_report(text, &mut room).expect("it is a report");
    room.truncate(records * RECORD_LENGTH);
    assert_eq!(check_signed_report(&room), Ok(pair));
    // By code that is not ours.
    let entries = report_text::read(text).unwrap_or_else(|_| panic!("it is a report"));
    assert!(report_text::pile_of(&entries) == room, "another pile is read");
    let named = signed::check_report(ed25519, &room);
    assert!(matches!(named, Ok(found) if found == (pair.first, pair.second)));
    room
}

/// The whole way of a pile whose walk named this pair.
fn convicts(ed25519: &Ed25519, pile: &[u8], pair: Pair) {
    assert_eq!(check_signed_report(pile), Ok(pair));
    let (mut out, mut again) = (vec![0xee; LONGEST_REPORT], vec![0xee; LONGEST_REPORT]);
    let length = write_signed_report(pile, &mut out).expect("it is a report");
    assert!(arrives(ed25519, &out[..length], pair) == pile, "another pile arrives");
    let cut = cut_signed_text(&out[..length], &mut again).expect("a run convicts");
    assert_eq!((cut.run.first, cut.run.last), (pair.first, pair.second));
    let ends = Pair { first: 0, second: pair.second - pair.first };
    let run = arrives(ed25519, &again[..cut.length], ends);
    assert_eq!(run.len(), cut.run.records() * RECORD_LENGTH);
    assert_eq!(run[32..64], [0; 32]);
    for place in 0..cut.run.records() {
        // The first one's rand alone is another.
        let from = if place == 0 { 64 } else { 0 };
        assert!(record(&run, place)[from..] == record(pile, pair.first + place)[from..]);
    }
}

#[test]
fn what_a_walk_saw_convicts() {
    let mut random = Xorshift::new(0x5eed_1010);
    let ed25519 = Ed25519::new();
    let all: Vec<Server> = (0..8).map(|_| Server::new(&mut random, &ed25519)).collect();
    let [mut convicted, mut consistent, mut of_eight] = [0; 3];
    for number in 0..WALKS {
        let servers = &all[..3 + number % 6];
        let Seen { windows, outcome, pile } = walked(&mut random, &ed25519, servers);
        assert_eq!(pile.len(), 2 * servers.len() * RECORD_LENGTH);
        for place in 0..2 * servers.len() {
            assert_eq!(record(&pile, place)[..32], servers[place % servers.len()].key);
        }
        let lie = (0..windows.len()).any(|j| (0..j).any(|i| contradicts(windows[i], windows[j])));
        match outcome {
            Outcome::Malfeasance(pair) => {
                assert!(lie, "walk {number}");
                convicts(&ed25519, &pile, pair);
                convicted += 1;
                of_eight += usize::from(servers.len() == 8);
            }
            Outcome::Consistent => {
                assert!(!lie, "walk {number}");
                let why = check_signed_report(&pile).unwrap_err().refusal;
                assert_eq!(why, Refusal::NoContradiction);
                let why = write_signed_report(&pile, &mut []).unwrap_err().refusal;
                assert_eq!(why, Refusal::NoContradiction);
                consistent += 1;
            }
            Outcome::GoesOn | Outcome::PileAltered => panic!("walk {number}: {outcome:?}"),
        }
    }
    println!("{WALKS} walks with real signatures: {consistent} end consistent, {convicted} in");
    println!("malfeasance, {of_eight} of these with 16 records, and go the whole way");
    assert!(consistent >= 30 && convicted >= 30 && of_eight >= 5);
}
