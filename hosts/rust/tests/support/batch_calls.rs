//! Calls that answer a whole batch: packets of every kind in slots of any size, right calls and ones
//! with any faults, and what each side leaves of all that it is lent.
//!
//! The first fault of a call, in the order of the rules, is known from how the call was made.

use super::answers::{Answer, Bad, Both};
use super::damage;
use super::packets::{number, radius, RequestFields};
use super::replies::{self, Fault};
use super::{hex, Xorshift};
use independent::batch::{Desk, Lent};
use independent::ed25519::{Ed25519, Secret};
use independent::hash::{self, Hash};
use independent::tag::{DELE, SIG, ZZZZ};
use independent::{message, packet, respond, text};
use trawlbeacon::{answer_batch, response_length, Sending, SigningKey, Waiting, MOST_LEAVES};

/// What can be wrong with a call, in the order in which it must be told.
#[derive(Clone, Copy, Debug, PartialEq, Eq)]
pub enum Wrong {
    Radius,
    /// With CERT or its DELE, of which `replies` has every kind.
    Cert(Fault),
    Seed,
    Time,
    Count,
    /// What is too short: the packets, the rows, the answers, their lengths, or the room of each.
    Room(Short),
}

#[derive(Clone, Copy, Debug, PartialEq, Eq)]
pub enum Short {
    Packets,
    Rows,
    Out,
    Lengths,
    Room,
}

pub const SHORT: [Short; 5] =
    [Short::Packets, Short::Rows, Short::Out, Short::Lengths, Short::Room];

/// Those of CERT and its DELE.
pub const OF_CERT: [Fault; 8] = [
    Fault::CertFrame,
    Fault::CertOrder,
    Fault::CertAbsent,
    Fault::CertValue,
    Fault::DeleFrame,
    Fault::DeleOrder,
    Fault::DeleAbsent,
    Fault::DeleValue,
];

impl Wrong {
    pub fn code(self) -> u32 {
        match self {
            Wrong::Radius => 7,
            Wrong::Cert(fault) => fault.code(),
            Wrong::Seed => 35,
            Wrong::Time => 11,
            Wrong::Count => 20,
            Wrong::Room(_) => 19,
        }
    }
}

/// A server, its two keys on both sides.
pub struct House {
    pub ed25519: Ed25519,
    pub key: [u8; 32],
    pub srv: Hash,
    long_term: Secret,
    delegated: Secret,
    own: SigningKey,
}

impl House {
    pub fn new(random: &mut Xorshift) -> Self {
        let (ed25519, seed) = (Ed25519::new(), random.array());
        let [long_term, delegated] = [random.array(), seed].map(|seed| ed25519.secret(&seed));
        let key = long_term.public;
        let own = SigningKey::new(&seed);
        House { ed25519, key, srv: hash::srv_value(&key), long_term, delegated, own }
    }

    /// A CERT from the first of these seconds to the last, signed, which now and then has a tag
    /// more.
    fn cert(&self, random: &mut Xorshift, pubk: &[u8; 32], mint: u64, maxt: u64) -> Vec<u8> {
        let dele = respond::dele(pubk, mint, maxt);
        let text = [text::DELEGATION, &dele].concat();
        let signature = self.ed25519.sign(&self.long_term, &text);
        let mut pairs = vec![(SIG, signature.to_vec()), (DELE, dele)];
        if random.once_in(4) {
            let words = random.below(120);
            pairs.push((ZZZZ, random.bytes(4 * words)));
        }
        message::encode(&pairs)
    }

    /// A packet that comes to the server, where an answer may need so many bytes.
    fn packet(&self, random: &mut Xorshift, needed: usize) -> Vec<u8> {
        let mut fields = RequestFields::random(random);
        fields.srv = fields.srv.map(|_| self.srv);
        match random.below(16) {
            0 => fields.srv = Some(random.array()),
            // All but the last byte of ours.
            1 => {
                let mut srv = self.srv;
                srv[31] ^= 1;
                fields.srv = Some(srv);
            }
            2 => return damage::bad_request(random, &fields),
            3 => {
                let length = random.below(packet::MOST + 40);
                return random.bytes(length);
            }
            4 => return Vec::new(),
            // About as long as an answer, or as one with fewer siblings.
            5..=8 => {
                fields.others.clear();
                let fewer = random.below(68);
                let length = (needed + 32).saturating_sub(4 * (fewer % 17) + 32 * (fewer / 17));
                fields.pad(length.min(packet::MOST));
            }
            9..=13 => fields.pad(1036),
            _ => (),
        }
        fields.packet()
    }
}

/// A call, and all that is lent with it.
pub struct BatchCall {
    pub packets: Vec<u8>,
    pub slot: usize,
    pub lengths: Vec<u32>,
    pub cert: Vec<u8>,
    pub midp: u64,
    pub radi: u32,
    rows: Vec<u8>,
    out: Vec<u8>,
    pub room: usize,
    out_lengths: Vec<u32>,
}

/// What a call left: its answer, and all that it may write.
#[derive(PartialEq)]
pub struct Left {
    pub answer: Result<usize, Bad>,
    pub rows: Vec<u8>,
    pub out: Vec<u8>,
    pub lengths: Vec<u32>,
}

impl Answer for Left {
    fn code(&self) -> u32 {
        self.answer.code()
    }

    fn show(&self) -> String {
        let digests = [&self.rows, &self.out].map(|bytes| hex(&hash::h(&[bytes])[..4]));
        format!("{}, {:?}, rows and out {digests:?}", self.answer.show(), self.lengths)
    }
}

/// The depth of a tree of so many leaves, and the bytes of its rows.
fn depth_and_rows(leaves: usize) -> (usize, usize) {
    let width = leaves.next_power_of_two();
    (width.trailing_zeros() as usize, 32 * (2 * width - 1))
}

/// Some bytes more, as often as not none.
fn more(random: &mut Xorshift) -> usize {
    if random.once_in(2) {
        0
    } else {
        random.below(200)
    }
}

/// So many, or fewer.
fn fewer(random: &mut Xorshift, than: usize) -> usize {
    if random.once_in(2) {
        than - 1
    } else {
        random.below(than)
    }
}

impl BatchCall {
    /// A call with so many packets, and these faults alone.
    pub fn with(random: &mut Xorshift, house: &House, count: usize, wrong: &[Wrong]) -> Self {
        let has = |fault| wrong.contains(&fault);
        let count = match has(Wrong::Count) {
            true => random.pick(&[0, 0, MOST_LEAVES + 1, MOST_LEAVES + 2]),
            false => count,
        };
        let (midp, mint, maxt) = replies::times(random, has(Wrong::Time));
        let pubk = if has(Wrong::Seed) { random.array() } else { house.delegated.public };
        let of_cert: Vec<Fault> = wrong
            .iter()
            .filter_map(|wrong| if let Wrong::Cert(fault) = wrong { Some(*fault) } else { None })
            .collect();
        let cert = match of_cert[..] {
            [] => house.cert(random, &pubk, mint, maxt),
            _ => replies::cert(random, &of_cert, mint, maxt).0,
        };
        let (depth, rows) = depth_and_rows(count);
        let needed = response_length(32 * depth, cert.len());
        let slot = random.pick(&[1036, 1036, 1100, 2000, 2001, 2048, 500]) + 4 * random.below(3);
        let (packets, lengths) = fill(random, house, slot, (count, needed));
        let room = needed + more(random);
        let mut call = BatchCall {
            packets,
            slot,
            lengths,
            cert,
            midp,
            radi: if has(Wrong::Radius) { 0 } else { radius(random) },
            rows: vec![0; rows + more(random)],
            out: vec![0; room * count + more(random)],
            room,
            out_lengths: vec![0; count + more(random)],
        };
        SHORT.into_iter().filter(|short| has(Wrong::Room(*short))).for_each(|short| {
            call.shorten(random, short, (needed, rows));
        });
        call.soil(random);
        call
    }

    /// Takes some of what is needed away, of which there must be some.
    fn shorten(&mut self, random: &mut Xorshift, short: Short, (needed, rows): (usize, usize)) {
        let count = self.lengths.len();
        match short {
            Short::Packets if random.once_in(3) => self.slot = usize::MAX / 2 + random.below(9),
            Short::Packets => self.packets.truncate(fewer(random, self.slot * count)),
            Short::Rows => self.rows.truncate(fewer(random, rows)),
            Short::Out if random.once_in(3) => self.room = usize::MAX - random.below(9),
            Short::Out => self.out.truncate(fewer(random, self.room * count)),
            Short::Lengths => self.out_lengths.truncate(fewer(random, count)),
            Short::Room => self.room = fewer(random, needed),
        }
    }

    /// What stands in the buffers before the call.
    fn soil(&mut self, random: &mut Xorshift) {
        self.rows = random.bytes(self.rows.len());
        self.out = random.bytes(self.out.len());
        self.out_lengths.iter_mut().for_each(|length| *length = random.next() as u32);
    }

    pub fn packet(&self, place: usize) -> &[u8] {
        &self.packets[self.slot * place..][..self.lengths[place] as usize]
    }

    fn ours(&self, house: &House) -> Left {
        let (mut rows, mut out) = (self.rows.clone(), self.out.clone());
        let mut lengths = self.out_lengths.clone();
        let waiting = Waiting {
            packets: &self.packets,
            slot: self.slot,
            lengths: &self.lengths,
            srv: &house.srv,
            cert: &self.cert,
            key: &house.own,
            midp: self.midp,
            radi: self.radi,
        };
        let sending =
            Sending { rows: &mut rows, out: &mut out, room: self.room, lengths: &mut lengths };
        let answer = answer_batch(&waiting, sending).map_err(Bad::from);
        Left { answer, rows, out, lengths }
    }

    fn independent(&self, house: &House) -> Left {
        let (mut rows, mut out) = (self.rows.clone(), self.out.clone());
        let mut lengths = self.out_lengths.clone();
        let (cert, secret) = (&self.cert[..], &house.delegated);
        let desk = Desk { srv: house.srv, cert, secret, midp: self.midp, radi: self.radi };
        let lent = Lent {
            packets: &self.packets,
            slot: self.slot,
            lengths: &self.lengths,
            rows: rows.len(),
            out: out.len(),
            room: self.room,
            out_lengths: lengths.len(),
        };
        let answered = match desk.answer(&house.ed25519, &lent) {
            Ok(answered) => answered,
            Err(why) => {
                let answer = Err(Bad { code: why.refusal.code(), at: why.at });
                return Left { answer, rows, out, lengths };
            }
        };
        rows[..answered.rows.len()].copy_from_slice(&answered.rows);
        for (place, answer) in answered.answers.iter().enumerate() {
            let answer = answer.as_deref().unwrap_or(&[]);
            lengths[place] = answer.len() as u32;
            out[self.room * place..][..answer.len()].copy_from_slice(answer);
        }
        Left { answer: Ok(answered.answers.iter().flatten().count()), rows, out, lengths }
    }

    /// What each side answers and leaves.
    pub fn ask(&self, house: &House) -> Both<Left> {
        Both { ours: self.ours(house), independent: self.independent(house) }
    }

    pub fn show(&self) -> String {
        let (slot, room, lengths) = (self.slot, self.room, &self.lengths);
        let lent = [self.packets.len(), self.rows.len(), self.out.len(), self.out_lengths.len()];
        let numbers = format!("MIDP {} RADI {} CERT {}", self.midp, self.radi, hex(&self.cert));
        let packets = if lengths.len() < 20 { hex(&self.packets) } else { "..".into() };
        format!("slot {slot}, room {room}, lent {lent:?}, {numbers}, {lengths:?}: {packets}")
    }
}

/// Slots with packets and, behind each, any bytes; and the lengths of the packets, some of which are
/// longer than the slot.
fn fill(
    random: &mut Xorshift,
    house: &House,
    slot: usize,
    (count, needed): (usize, usize),
) -> (Vec<u8>, Vec<u32>) {
    let extra = more(random);
    let mut packets = random.bytes(slot * count + extra);
    let mut lengths = Vec::with_capacity(count);
    for place in 0..count {
        let packet = house.packet(random, needed);
        let kept = packet.len().min(slot);
        packets[slot * place..][..kept].copy_from_slice(&packet[..kept]);
        let any = number(random) as u32;
        lengths.push(if random.once_in(40) { any } else { packet.len() as u32 });
    }
    (packets, lengths)
}
