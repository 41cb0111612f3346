//! Signatures right and wrong, made by the independent Ed25519, and those at the borders of what
//! RFC 8032 accepts.

use super::Xorshift;
use independent::ed25519::{Ed25519, Secret};
use independent::edwards::{Point, L};
use independent::number::{Number, P};

/// A key, a text and a signature, and what was done to them.
#[derive(Clone)]
pub struct Case {
    pub what: &'static str,
    pub key: Vec<u8>,
    pub text: Vec<u8>,
    pub signature: Vec<u8>,
}

/// What can be done to a signature that verifies.
pub const DAMAGES: [&str; 24] = [
    "a bit of R",
    "a bit of S",
    "a bit of the key",
    "a bit of the text",
    "a byte more of the text",
    "a byte less of the text",
    "the sign of R",
    "the sign of the key",
    "S + L",
    "L - S",
    "S with a bit above L's",
    "R and S exchanged",
    "another's key",
    "another's R",
    "another's S",
    "another text",
    "a short signature",
    "a long signature",
    "a short key",
    "a long key",
    "any bytes",
    "R with its y as y + p, or any y",
    "a key with a part of small order",
    "an R with a part of small order",
];

/// Makes signatures by a few keys.
pub struct Maker {
    pub ed25519: Ed25519,
    secrets: Vec<Secret>,
    small: Vec<Point>,
}

/// The number in the second half of a signature.
fn s_of(signature: &[u8]) -> Number {
    Number::from_bytes(signature[32..64].try_into().expect("half of 64 bytes"))
}

fn turn(bytes: &mut [u8], bit: usize) {
    bytes[bit / 8] ^= 1 << (bit % 8);
}

impl Maker {
    pub fn new(random: &mut Xorshift, keys: usize) -> Self {
        let ed25519 = Ed25519::new();
        let secrets = (0..keys).map(|_| ed25519.secret(&random.array())).collect();
        let small = small_points(&ed25519);
        Maker { ed25519, secrets, small }
    }

    /// A signature of a text of any length up to 300, and of some as long as packets.
    pub fn good(&self, random: &mut Xorshift) -> Case {
        let length = if random.once_in(20) { random.below(2000) } else { random.below(300) };
        let text = random.bytes(length);
        let secret = &self.secrets[random.below(self.secrets.len())];
        self.signed(secret, text)
    }

    fn signed(&self, secret: &Secret, text: Vec<u8>) -> Case {
        let signature = self.ed25519.sign(secret, &text).to_vec();
        Case { what: "nothing", key: secret.public.to_vec(), text, signature }
    }

    /// The signature of a text of this length.
    pub fn of_length(&self, random: &mut Xorshift, length: usize) -> Case {
        let text = random.bytes(length);
        self.signed(&self.secrets[0], text)
    }

    /// The case with this damage done to it.
    pub fn damaged(&self, random: &mut Xorshift, good: &Case, kind: usize) -> Case {
        let mut case = Case { what: DAMAGES[kind], ..good.clone() };
        let Case { key, text, signature, .. } = &mut case;
        match kind {
            0 => turn(&mut signature[..32], random.below(256)),
            1 => turn(&mut signature[32..], random.below(256)),
            2 => turn(key, random.below(256)),
            3 if !text.is_empty() => {
                let bit = random.below(8 * text.len());
                turn(text, bit);
            }
            3 | 4 => text.push(random.next() as u8),
            5 if !text.is_empty() => drop(text.pop()),
            5 => text.push(0),
            6 => turn(&mut signature[..32], 255),
            7 => turn(key, 255),
            8 => self.set_s(signature, |s| s.plus(L).0),
            9 => self.set_s(signature, |s| L.minus(s)),
            10 => turn(&mut signature[32..], 253 + random.below(3)),
            11 => signature.rotate_left(32),
            12 => *key = self.other(random, key).public.to_vec(),
            13 => signature[..32].copy_from_slice(&self.good(random).signature[..32]),
            14 => signature[32..].copy_from_slice(&self.good(random).signature[32..]),
            15 => *text = random.bytes(text.len() + 1),
            16 => signature.truncate(random.below(64)),
            17 => signature.extend(random.array()),
            18 => key.truncate(random.below(32)),
            19 => key.push(0),
            20 => *signature = random.bytes(64),
            21 => self.past_p(random, signature),
            22 | 23 => return self.mixed(random, good, kind),
            _ => unreachable!("there are so many kinds"),
        }
        case
    }

    fn set_s(&self, signature: &mut [u8], change: impl Fn(Number) -> Number) {
        let s = change(s_of(signature));
        signature[32..].copy_from_slice(&s.to_bytes());
    }

    fn other(&self, random: &mut Xorshift, key: &[u8]) -> &Secret {
        loop {
            let secret = &self.secrets[random.below(self.secrets.len())];
            if secret.public[..] != *key {
                return secret;
            }
        }
    }

    /// An R whose y is p or more: y + p where that fits in 255 bits, else any of p to 2^255 - 1.
    fn past_p(&self, random: &mut Xorshift, signature: &mut [u8]) {
        let more = Number::small(random.next() % 19);
        let mut bytes = P.plus(more).0.to_bytes();
        bytes[31] |= (random.next() as u8) & 0x80;
        signature[..32].copy_from_slice(&bytes);
    }

    /// A signature by a key, or with an R, to which a point of small order was added. With the
    /// cofactor it would verify; without it, only where k times that point is the neutral one.
    fn mixed(&self, random: &mut Xorshift, good: &Case, kind: usize) -> Case {
        let curve = self.ed25519.curve();
        let secret = &self.secrets[random.below(self.secrets.len())];
        let small = self.small[1 + random.below(7)];
        let point = curve.decode(&secret.public).expect("it is a key");
        let (public, more) = match kind {
            22 => (curve.add(point, small).encode(), Point::NEUTRAL),
            _ => (secret.public, small),
        };
        let signature = self.ed25519.sign_as(secret, &public, more, &good.text).to_vec();
        Case { what: DAMAGES[kind], key: public.to_vec(), text: good.text.clone(), signature }
    }
}

/// The eight points of small order, the neutral one first: what is left of some point after L.
fn small_points(ed25519: &Ed25519) -> Vec<Point> {
    let curve = ed25519.curve();
    let mut y = 2u64;
    loop {
        let bytes = Number::small(y).to_bytes();
        y += 1;
        let Ok(point) = curve.decode(&bytes) else { continue };
        let small = curve.times(L, point);
        let four = curve.times(Number::small(4), small);
        if !four.equal(Point::NEUTRAL) {
            return (0..8).map(|times| curve.times(Number::small(times), small)).collect();
        }
    }
}

/// Every encoding of the points of small order, and those that would be one if y were taken modulo
/// p or the sign of 0 were let pass: seven y, with both signs.
pub fn small_encodings(ed25519: &Ed25519) -> Vec<[u8; 32]> {
    let clear = |mut bytes: [u8; 32]| {
        bytes[31] &= 0x7f;
        bytes
    };
    let mut all: Vec<[u8; 32]> =
        small_points(ed25519).iter().map(|point| clear(point.encode())).collect();
    all.extend([P, P.plus(Number::small(1)).0].map(Number::to_bytes));
    all.sort_unstable();
    all.dedup();
    with_both_signs(&all)
}

/// The y from 0 to 20 and from p - 20 to 2^255 - 1, with both signs.
pub fn border_encodings() -> Vec<[u8; 32]> {
    let low = (0..=20).map(|y| Number::small(y).to_bytes());
    let high = (0..39).map(|y| P.minus(Number::small(20)).plus(Number::small(y)).0.to_bytes());
    with_both_signs(&low.chain(high).collect::<Vec<_>>())
}

fn with_both_signs(all: &[[u8; 32]]) -> Vec<[u8; 32]> {
    let signed = |bytes: &[u8; 32]| {
        let mut signed = *bytes;
        signed[31] |= 0x80;
        [*bytes, signed]
    };
    all.iter().flat_map(signed).collect()
}

/// 0, 1, L - 1, L, L + 1 and 2^256 - 1.
pub fn border_scalars() -> [[u8; 32]; 6] {
    let one = Number::small(1);
    [Number::ZERO, one, L.minus(one), L, L.plus(one).0, Number([u64::MAX; 4])].map(Number::to_bytes)
}

/// All that stands at a border: small order as key and as R with each S; each y at the ends of its
/// range as key and as R, beside a good signature and beside the neutral point with S = 0; a good
/// signature with each S.
pub fn borders(random: &mut Xorshift) -> Vec<Case> {
    let maker = Maker::new(random, 3);
    let curve = maker.ed25519.curve();
    let good = maker.good(random);
    let case = |what, key: &[u8], text: &[u8], r: &[u8], s: &[u8]| Case {
        what,
        key: key.to_vec(),
        text: text.to_vec(),
        signature: [r, s].concat(),
    };
    let neutral = Point::NEUTRAL.encode();
    let base = [curve.base().encode(), curve.base().negative().encode()];
    let mut cases = vec![good.clone()];
    for s in border_scalars() {
        cases.push(case("S at a border", &good.key, &good.text, &good.signature[..32], &s));
        for key in small_encodings(&maker.ed25519) {
            for r in small_encodings(&maker.ed25519).iter().chain(&base) {
                cases.push(case("small order", &key, b"", r, &s));
                cases.push(case("small order", &key, b"a text", r, &s));
            }
        }
    }
    for bytes in border_encodings() {
        let (r, s) = good.signature.split_at(32);
        cases.push(case("y of the key at a border", &bytes, &good.text, r, s));
        cases.push(case("y of the key at a border", &bytes, b"", &neutral, &[0; 32]));
        cases.push(case("y of R at a border", &good.key, &good.text, &bytes, s));
        cases.push(case("y of R at a border", &neutral, b"", &bytes, &[0; 32]));
    }
    cases
}
