//! Piles of which it is known what must be said of them, since it is known how they were made.
//!
//! A record is first wished for, then made as a pair with the nonce that ties it to the record
//! before it, broken as wished, and laid into its bytes. No reader's help is needed to know what it
//! must be refused with.

use super::damage::{self, Damaged};
use super::packets::{RequestFields, ResponseFields};
use super::pairs::{Pair, Question};
use super::signing::Servers;
use super::Xorshift;
use independent::hash::{self, Hash};
use independent::making::{self, Made};
use independent::packet;
use trawlbeacon::{Checked, Window};

/// How a record is tied to the one before it.
#[derive(Clone, Copy, Debug, PartialEq, Eq)]
pub enum Tie {
    Linked,
    /// The nonce is made of nothing that the pile holds.
    OtherNonce,
    /// The rand was changed afterwards.
    OtherRand,
    /// The response before was another.
    OtherResponse,
    /// The message was hashed without the header of its packet.
    WithoutHeader,
    /// The rand was hashed before the response.
    RandFirst,
    /// The zeros after the response were hashed with it.
    WholeArea,
}

/// Every tie that is no link.
pub const BROKEN: [Tie; 6] = [
    Tie::OtherNonce,
    Tie::OtherRand,
    Tie::OtherResponse,
    Tie::WithoutHeader,
    Tie::RandFirst,
    Tie::WholeArea,
];

/// What is to stand in a record.
#[derive(Clone, Debug)]
pub struct Wish {
    pub midp: u64,
    /// Where it is 0, the response is not damaged as well.
    pub radi: u32,
    /// The client's versions and the server's, where they are to be other than usual. No rule of
    /// the response check is broken then, and neither packet damaged.
    pub versions: Option<(Vec<u32>, Vec<u32>)>,
    /// Whether the packets have every shape that the rules allow, or the plainest.
    pub rich: bool,
    pub tie: Tie,
    /// Rules of the response check that are broken, named by their codes and rising.
    pub rules: Vec<u32>,
    pub bad_response: bool,
    /// The code that the damage to the response is to lead to, where it is not to be any.
    pub damage: Option<u32>,
    pub bad_request: bool,
    pub bad_layout: bool,
}

impl Wish {
    /// A valid record that is linked to the one before it.
    pub fn good((midp, radi): (u64, u32)) -> Self {
        Wish {
            midp,
            radi,
            versions: None,
            rich: false,
            tie: Tie::Linked,
            rules: vec![],
            bad_response: false,
            damage: None,
            bad_request: false,
            bad_layout: false,
        }
    }

    /// Wishes for the fault that a record is refused with this code for.
    pub fn fault(&mut self, code: u32) {
        match code {
            16 => self.bad_layout = true,
            14 => self.bad_request = true,
            1..=7 => (self.bad_response, self.damage) = (true, Some(code)),
            _ => self.rules.push(code),
        }
    }

    /// Wishes for one fault, each kind of which is as likely as another.
    pub fn spoil(&mut self, random: &mut Xorshift) {
        match random.below(7) {
            0 | 1 => self.bad_response = true,
            2 => self.bad_request = true,
            3 => self.bad_layout = true,
            _ => {
                self.rules.push(random.pick(&super::pairs::RULES));
                self.rules.sort_unstable();
                self.rules.dedup();
            }
        }
    }
}

/// What must be said of a pile.
#[derive(Clone, Default)]
pub struct Truth {
    /// The window and the key of each record, or the code that it is refused with.
    pub verdicts: Vec<Result<Checked, u32>>,
    /// Whether each is linked to the one before it, which the first is to none.
    pub linked: Vec<bool>,
    pub first_rand_zero: bool,
}

/// Whether these windows contradict each other, with all terms on the side on which they are added.
pub fn contradicts(earlier: &Window, later: &Window) -> bool {
    u128::from(earlier.midp)
        > u128::from(later.midp) + u128::from(later.radi) + u128::from(earlier.radi)
}

impl Truth {
    /// Whether two valid records contradict each other, whatever stands between them.
    pub fn contradiction(&self) -> bool {
        let valid: Vec<Window> = self.verdicts.iter().flatten().map(|valid| valid.window).collect();
        valid
            .iter()
            .enumerate()
            .any(|(place, later)| valid[..place].iter().any(|earlier| contradicts(earlier, later)))
    }

    /// The run that convicts. Every pair that contradicts each other across valid and linked
    /// records is found, and then the closest is taken: a run is the shortest only where its ends
    /// are such a pair.
    pub fn run(&self) -> Option<(usize, usize)> {
        let mut found = Vec::new();
        for first in 0..self.verdicts.len() {
            for last in first..self.verdicts.len() {
                if last > first && !self.linked[last] {
                    break;
                }
                match (&self.verdicts[first], &self.verdicts[last]) {
                    (Ok(earlier), Ok(later)) if contradicts(&earlier.window, &later.window) => {
                        found.push((first, last))
                    }
                    (Ok(_), Ok(_)) => (),
                    _ => break,
                }
            }
        }
        found.into_iter().min_by_key(|(first, last)| (last - first, *first))
    }

    /// The pair for which the pile is a report, or the code and the place that it is refused with.
    pub fn report(&self) -> Result<(usize, usize), (u32, Option<usize>)> {
        for (place, verdict) in self.verdicts.iter().enumerate() {
            verdict.map_err(|code| (code, Some(place)))?;
        }
        let tied =
            |place: usize| if place == 0 { self.first_rand_zero } else { self.linked[place] };
        match (0..self.verdicts.len()).find(|place| !tied(*place)) {
            Some(place) => Err((17, Some(place))),
            None => self.run().ok_or((18, None)),
        }
    }
}

/// Where the parts of a record are, as the document lists them.
const LENGTHS_AT: [usize; 2] = [64, 68];
const GAP: std::ops::Range<usize> = 72..96;
const AREAS_AT: [usize; 2] = [96, 2096];
const REQUEST: usize = 0;
const RESPONSE: usize = 1;

/// A pile in the making.
pub struct Builder<'a> {
    pub made: Made,
    pub truth: Truth,
    /// The response of the last record, where its length is not too large.
    before: Option<Vec<u8>>,
    /// Who signs, where anybody does.
    servers: Option<&'a Servers>,
}

/// The pile of these records, the first with a rand of zeros or any other.
pub fn build(random: &mut Xorshift, wishes: &[Wish], first_rand_zero: bool) -> (Made, Truth) {
    build_by(random, wishes, first_rand_zero, None)
}

/// The same, with every response signed by these servers, or forged where the answer about a
/// signature is to be a no. The answers beside the pile are what its signatures must be found to be,
/// where no response is damaged.
pub fn build_signed(
    random: &mut Xorshift,
    wishes: &[Wish],
    first_rand_zero: bool,
    servers: &Servers,
) -> (Made, Truth) {
    build_by(random, wishes, first_rand_zero, Some(servers))
}

fn build_by(
    random: &mut Xorshift,
    wishes: &[Wish],
    first_rand_zero: bool,
    servers: Option<&Servers>,
) -> (Made, Truth) {
    let made = Made { pile: vec![], answers: vec![] };
    let truth = Truth { first_rand_zero, ..Truth::default() };
    let mut builder = Builder { made, truth, before: None, servers };
    for wish in wishes {
        builder.add(random, wish);
    }
    (builder.made, builder.truth)
}

impl Builder<'_> {
    fn add(&mut self, random: &mut Xorshift, wish: &Wish) {
        let first = self.truth.verdicts.is_empty();
        let mut rand = if first && self.truth.first_rand_zero { [0; 32] } else { random.array() };
        let tie = if first { Tie::OtherNonce } else { wish.tie };
        let nonce = nonce(random, tie, self.before.as_deref().unwrap_or(&[]), &mut rand);
        let mut pair = pair(random, wish, nonce);
        let key = self.servers.map(|servers| servers.sign(random, &mut pair).key);
        let mut due = wrong_versions(&pair).or(wish.rules.first().copied());
        let Question { mut request, mut response, delegation, signature } = pair.question();
        if wish.bad_response {
            let damaged = damaged(random, wish, &pair.response);
            response = damaged.packet;
            due = damage::first(&damaged.done).map(|done| done.1).or(due);
        }
        if wish.bad_request {
            request = damage::bad_request(random, &pair.request);
            due = Some(14);
        }
        let mut record = lay(random, key, &rand, [&request, &response]);
        if wish.bad_layout {
            spoil_layout(random, &mut record);
        }
        if wish.bad_layout || request.len().max(response.len()) > packet::MOST {
            due = Some(16);
        }
        let asked = packet_in(&record, REQUEST).map_or(false, |packet| packet == request)
            && !wish.bad_request
            && pair.request.versions.contains(&1);
        let linked =
            tie == Tie::Linked && self.before.is_some() && asked && pair.request.nonc == nonce;
        self.before = packet_in(&record, RESPONSE);
        self.truth.verdicts.push(due.map_or(Ok(pair.checked()), Err));
        self.truth.linked.push(linked);
        self.made.pile.extend(record);
        self.made.answers.extend([u8::from(delegation), u8::from(signature)]);
    }
}

/// The response with damage of any kind, or of the one that is wished for.
fn damaged(random: &mut Xorshift, wish: &Wish, response: &ResponseFields) -> Damaged {
    loop {
        let damaged = damage::bad_response(random, response);
        if wish.damage.map_or(true, |code| damage::first_code(&damaged.done) == code) {
            return damaged;
        }
    }
}

/// The nonce that ties a request to the response before it in this way.
fn nonce(random: &mut Xorshift, tie: Tie, before: &[u8], rand: &mut Hash) -> Hash {
    let linked = hash::link(before, rand);
    // In a response as short or as long as this, some of the wrong ways are no other than the right
    // one.
    let usual = before.len() > packet::HEADER && before.len() < packet::MOST;
    match tie {
        Tie::Linked => linked,
        Tie::OtherRand => {
            rand[random.below(32)] ^= 1 << random.below(8);
            linked
        }
        Tie::OtherResponse if usual => {
            let mut other = before.to_vec();
            other[random.below(before.len())] ^= 1 << random.below(8);
            hash::link(&other, rand)
        }
        Tie::WithoutHeader if usual => hash::link(&before[packet::HEADER..], rand),
        Tie::RandFirst if usual => hash::h(&[rand, before]),
        Tie::WholeArea if usual => hash::h(&[before, &vec![0; packet::MOST - before.len()], rand]),
        _ => random.array(),
    }
}

/// A request with this nonce and the response to it, with the rules broken that are to be.
fn pair(random: &mut Xorshift, wish: &Wish, nonce: Hash) -> Pair {
    let depth = if wish.rich && random.once_in(3) { random.below(33) } else { random.below(4) };
    let mut pair = if wish.rich { Pair::random(random, depth) } else { plain(random, depth) };
    pair.request.nonc = nonce;
    if let Some((asked, listed)) = &wish.versions {
        (pair.request.versions, pair.response.versions) = (asked.clone(), listed.clone());
        pair.request.trim();
        pair.response.trim();
    }
    pair.tell(wish.midp, wish.radi);
    pair.tie();
    for rule in &wish.rules {
        pair.break_rule(random, *rule);
    }
    pair
}

/// What is due to a pair for its versions or its radius, if anything is.
fn wrong_versions(pair: &Pair) -> Option<u32> {
    let Pair { request, response, .. } = pair;
    match response.radi {
        _ if !request.versions.contains(&1) => Some(14),
        0 => Some(7),
        _ if !response.versions.contains(&1) || pair.talked_down() => Some(8),
        _ => None,
    }
}

/// A pair with no tag that is not needed.
fn plain(random: &mut Xorshift, depth: usize) -> Pair {
    let request = RequestFields {
        versions: vec![1],
        srv: None,
        nonc: random.array(),
        type_number: 0,
        others: vec![],
    };
    let response = ResponseFields {
        sig: random.bytes(64),
        nonc: request.nonc,
        type_number: 1,
        path: (0..depth).map(|_| random.array()).collect(),
        indx: random.below(1 << depth) as u32,
        version: 1,
        radi: 1,
        midp: 0,
        versions: vec![1],
        root: [0; 32],
        cert_sig: random.bytes(64),
        pubk: random.array(),
        mint: 0,
        maxt: u64::MAX,
        others: Default::default(),
    };
    Pair { request, response, delegation: true, signature: true }
}

/// The bytes of a record, with any key where none is given. A packet that is too long for its area is cut off there, and its length
/// is told as it is.
fn lay(random: &mut Xorshift, key: Option<[u8; 32]>, rand: &Hash, packets: [&[u8]; 2]) -> Vec<u8> {
    let key = key.unwrap_or_else(|| random.array());
    let [request, response] = packets.map(|packet| &packet[..packet.len().min(packet::MOST)]);
    let mut record = making::record(&key, rand, request, response);
    for (packet, at) in packets.iter().zip(LENGTHS_AT) {
        set_length(&mut record, at, packet.len());
    }
    record
}

fn set_length(record: &mut [u8], at: usize, length: usize) {
    record[at..at + 4].copy_from_slice(&(length as u32).to_le_bytes());
}

/// The request or the response that stands in a record, where its length is not too large.
fn packet_in(record: &[u8], which: usize) -> Option<Vec<u8>> {
    let [low, high, 0, 0] = record[LENGTHS_AT[which]..][..4] else { return None };
    let length = usize::from(u16::from_le_bytes([low, high]));
    (length <= packet::MOST).then(|| record[AREAS_AT[which]..][..length].to_vec())
}

/// Lengths that no packet may have.
const TOO_LONG: [usize; 6] = [2001, 2048, 2304, 1 << 16, 1 << 24, u32::MAX as usize];

/// Gives a record a length above 2,000, or a byte that is not zero and must be, at any place where
/// there can be one.
fn spoil_layout(random: &mut Xorshift, record: &mut [u8]) {
    let which = random.pick(&[REQUEST, RESPONSE]);
    let packet = packet_in(record, which).unwrap_or_default();
    let (start, left) = (AREAS_AT[which] + packet.len(), packet::MOST - packet.len());
    match (random.below(5), packet.iter().rposition(|byte| *byte != 0)) {
        (0, _) => set_length(record, LENGTHS_AT[which], random.pick(&TOO_LONG)),
        (1 | 2, _) if left > 0 => dirty(random, &mut record[start..start + left]),
        // The packet is longer than its length says.
        (3, Some(last)) => set_length(record, LENGTHS_AT[which], edge(random, last + 1)),
        _ => dirty(random, &mut record[GAP]),
    }
}

/// Turns a bit of zeros, in the first byte of them, the last or any.
fn dirty(random: &mut Xorshift, zeros: &mut [u8]) {
    zeros[edge(random, zeros.len())] |= 1 << random.below(8);
}

/// A number below `end`: the first, the last or any.
fn edge(random: &mut Xorshift, end: usize) -> usize {
    let any = random.below(end);
    random.pick(&[0, end - 1, any])
}
