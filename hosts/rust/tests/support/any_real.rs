//! What is real: requests, responses, piles, reports as JSON, signatures and lists of servers, made
//! by the independent implementation and signed by its Ed25519. Some of it breaks a rule, since a
//! bit that is turned does so only now and then.

use crate::support::published::entries_of;
use crate::support::signed::{self, DAMAGES};
use crate::support::texts::{Tree, WRONG_SIZE, WRONG_TEXT};
use crate::support::{json_values::Style, list_trees, Xorshift};
use independent::ed25519::Ed25519;
use independent::making::Link;
use independent::pile::RECORD;
use independent::signing::{self, Keys};
use independent::{appendix, hash, pile, report_text};

/// A request, the response to it, and the long-term key of the server.
pub struct Exchange {
    pub key: [u8; 32],
    pub request: Vec<u8>,
    pub response: Vec<u8>,
}

pub struct Real {
    pub exchanges: Vec<Exchange>,
    /// Of few records.
    pub piles: Vec<Vec<u8>>,
    /// Of two records a server, for 3 to 8 servers, in the order in which a walk asks them; the
    /// first has two bad ones.
    pub walks: Vec<Vec<u8>>,
    pub texts: Vec<Vec<u8>>,
    pub signatures: Vec<signed::Case>,
    /// The records of a list of servers.
    pub servers: Vec<u8>,
    /// Lists of servers as JSON.
    pub lists: Vec<Vec<u8>>,
}

/// A time that is well after 1970, and a day.
const NOW: u64 = 1_700_000_000;
const DAY: u64 = 86_400;

/// A record of a pile that tells this time.
fn link(random: &mut Xorshift, place: usize, midp: u64) -> Link {
    let siblings = random.pick(&[0, 0, 0, 1, 3]);
    let rand = if place == 0 { [0; 32] } else { random.array() };
    Link { rand, siblings, ..Link::new(1, midp, 5) }
}

/// Records of which none contradicts another, or of which the one at `liar` is a day ahead.
fn links(random: &mut Xorshift, count: usize, liar: Option<usize>) -> Vec<Link> {
    let time = |place| NOW + place as u64 + if liar == Some(place) { DAY } else { 0 };
    (0..count).map(|place| link(random, place, time(place))).collect()
}

/// Records that break a rule: VERS, a later version that both know, MAXT, MINT, the link, the first
/// rand.
fn broken(random: &mut Xorshift) -> Vec<Vec<Link>> {
    let changes: [fn(&mut Vec<Link>); 8] = [
        |links| links[1].listed = vec![2],
        |links| (links[1].asked, links[1].listed) = (vec![1, 2], vec![1, 2]),
        |links| links[1].maxt = NOW - 1,
        |links| links[2].mint = NOW + DAY,
        |links| links[1].nonce = Some([7; 32]),
        |links| links[0].rand = [7; 32],
        |links| (links[0].request_size, links[1].siblings) = (2000, 32),
        |links| links[1].response_size = 2000,
    ];
    let mut with = |change: &fn(&mut Vec<Link>)| {
        let mut links = links(random, 3, Some(0));
        change(&mut links);
        links
    };
    changes.iter().map(&mut with).collect()
}

/// A pile of these records, signed by as many servers in turn as this.
fn signed(ed25519: &Ed25519, keys: &[Keys], links: &[Link], servers: usize) -> Vec<u8> {
    signing::chain(ed25519, links, |place| &keys[place % servers])
}

fn exchanges_of(pile: &Vec<u8>) -> Vec<Exchange> {
    let exchange = |record: pile::Record| {
        let (request, response) = record.packets().ok()?;
        let (request, response) = (request.to_vec(), response.to_vec());
        Some(Exchange { key: *record.key(), request, response })
    };
    let records = pile::records(pile).expect("it is a pile");
    records.into_iter().filter_map(exchange).collect()
}

/// The texts of these piles, and others, right and wrong, of short packets.
fn texts(random: &mut Xorshift, piles: &[Vec<u8>]) -> Vec<Vec<u8>> {
    let of_pile =
        |pile: &Vec<u8>| report_text::text(&entries_of(pile).expect("it is a pile")).into_bytes();
    let mut texts: Vec<Vec<u8>> = piles.iter().map(of_pile).collect();
    let wrongs = WRONG_SIZE.iter().cycle().take(12).chain(&WRONG_TEXT).map(Some);
    for wrong in wrongs.chain([None; 24]) {
        let mut tree = Tree::rich(random);
        wrong.into_iter().for_each(|wrong| tree.spoil(random, *wrong));
        let style = Style::random(random);
        texts.push(tree.text(random, style).bytes);
    }
    texts.retain(|text| text.len() <= 40_000);
    texts
}

/// Lists of servers, right and wrong. They are made by random numbers of their own, so that all else
/// stays as it is where they change.
fn lists() -> Vec<Vec<u8>> {
    let random = &mut Xorshift::new(0x5eed_0804);
    let wrongs = list_trees::WRONG_SIZE.iter().cycle().take(18).chain(&list_trees::WRONG_TEXT);
    let mut lists = Vec::new();
    for wrong in wrongs.map(Some).chain([None; 60]) {
        let mut tree = list_trees::Tree::rich(random);
        wrong.into_iter().for_each(|wrong| tree.spoil(random, *wrong));
        let style = Style::random(random);
        lists.push(tree.text(random, style).bytes);
    }
    lists.retain(|list| list.len() <= 30_000);
    lists
}

/// Signatures that verify, and each damage to one.
fn signatures(random: &mut Xorshift) -> Vec<signed::Case> {
    let maker = signed::Maker::new(random, 3);
    let mut cases: Vec<signed::Case> = (0..DAMAGES.len()).map(|_| maker.good(random)).collect();
    for kind in 0..DAMAGES.len() {
        cases.push(maker.damaged(random, &cases[kind], kind));
    }
    cases
}

impl Real {
    pub fn new(random: &mut Xorshift) -> Self {
        let ed25519 = Ed25519::new();
        let mut new_keys = |_| Keys::new(&ed25519, random.array(), random.array());
        let keys: Vec<Keys> = (0..8).map(&mut new_keys).collect();
        let mut piles = vec![appendix::pile().pile];
        for (count, liar) in [(1, None), (2, None), (2, Some(0)), (4, Some(1)), (4, Some(3))] {
            piles.push(signed(&ed25519, &keys, &links(random, count, liar), 8));
        }
        piles.extend(broken(random).iter().map(|links| signed(&ed25519, &keys, links, 8)));
        let mut late = links(random, 6, None);
        (late[1].maxt, late[2].listed) = (NOW - 1, vec![2]);
        let mut walks = vec![signed(&ed25519, &keys, &late, 3)];
        for servers in 3..=8 {
            for liar in [None, Some(random.below(servers))] {
                let links = links(random, 2 * servers, liar);
                walks.push(signed(&ed25519, &keys, &links, servers));
            }
        }
        let exchanges = piles.iter().chain(&walks).flat_map(exchanges_of).collect();
        let texts = texts(random, &piles);
        let record = |keys: &Keys| {
            let key = keys.long_term.public;
            [key, hash::srv_value(&key)].concat()
        };
        let servers = keys.iter().flat_map(record).collect();
        let signatures = signatures(random);
        Real { exchanges, piles, walks, texts, signatures, servers, lists: lists() }
    }
}

/// How many records these bytes would be.
pub fn records(pile: &[u8]) -> usize {
    pile.len() / RECORD
}
