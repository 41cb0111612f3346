//! Servers that sign their responses, and forgers of each of the two signatures.
//!
//! A pair says of each signature whether it is to verify. Where it is not, the signature is forged
//! in one of many ways, and never by a change to what the response says, so that no other rule is
//! broken or mended: what was signed, who signed it and what became of the signature are other than
//! they should be, or the key is.

use super::packets::{Level, ResponseFields};
use super::pairs::Pair;
use super::Xorshift;
use independent::ed25519::{Ed25519, Secret};
use independent::edwards::L;
use independent::number::Number;
use independent::{message, text};

/// How a signature comes not to verify.
#[derive(Clone, Copy, Debug, PartialEq, Eq)]
pub enum Forgery {
    /// A bit of R was turned.
    BitOfR,
    /// A bit of S was turned.
    BitOfS,
    /// S + L stands for S.
    AddedL,
    /// L - S stands for S.
    NegativeS,
    /// R and S are the wrong way round.
    Halves,
    /// Any 64 bytes.
    AnyBytes,
    /// A bit of the value was turned after it was signed.
    BitOfValue,
    /// The value was signed without its context.
    NoContext,
    /// The context lacks its zero byte.
    NoZeroByte,
    /// The context is the other one.
    OtherContext,
    /// Another server signed.
    OtherServer,
    /// The other key of the server signed.
    OtherKey,
    /// It is the other signature of the same response.
    OtherSignature,
    /// A bit of the key was turned: of the long-term one that is lent, or of PUBK before it was
    /// delegated to.
    BitOfKey,
    /// The key is another's, lent or delegated to.
    AnothersKey,
}

pub const FORGERIES: [Forgery; 15] = [
    Forgery::BitOfR,
    Forgery::BitOfS,
    Forgery::AddedL,
    Forgery::NegativeS,
    Forgery::Halves,
    Forgery::AnyBytes,
    Forgery::BitOfValue,
    Forgery::NoContext,
    Forgery::NoZeroByte,
    Forgery::OtherContext,
    Forgery::OtherServer,
    Forgery::OtherKey,
    Forgery::OtherSignature,
    Forgery::BitOfKey,
    Forgery::AnothersKey,
];

/// A server's long-term key, and one that it delegates to.
struct Server {
    long_term: Secret,
    delegated: Secret,
}

/// Several of them.
pub struct Servers {
    pub ed25519: Ed25519,
    servers: Vec<Server>,
}

/// What came of a signing.
pub struct Signed {
    /// The long-term key to be lent, or to stand in the record.
    pub key: [u8; 32],
    /// What was done to the delegation's signature and to the response's.
    pub forged: [Option<Forgery>; 2],
}

/// What is signed, and by whom.
#[derive(Clone, Copy)]
struct Part<'a> {
    secret: &'a Secret,
    context: &'a [u8],
    value: &'a [u8],
}

impl Part<'_> {
    fn text(self) -> Vec<u8> {
        [self.context, self.value].concat()
    }
}

fn turn(random: &mut Xorshift, bytes: &mut [u8]) {
    let bit = random.below(8 * bytes.len());
    bytes[bit / 8] ^= 1 << (bit % 8);
}

/// The key that stands in the place of this one.
fn key_of(
    random: &mut Xorshift,
    forged: Option<Forgery>,
    own: &Secret,
    other: &Secret,
) -> [u8; 32] {
    let mut key = own.public;
    match forged {
        Some(Forgery::BitOfKey) => turn(random, &mut key),
        Some(Forgery::AnothersKey) => key = other.public,
        _ => (),
    }
    key
}

impl Servers {
    pub fn new(random: &mut Xorshift, count: usize) -> Self {
        let ed25519 = Ed25519::new();
        let mut server = || Server {
            long_term: ed25519.secret(&random.array()),
            delegated: ed25519.secret(&random.array()),
        };
        let servers = (0..count).map(|_| server()).collect();
        Servers { ed25519, servers }
    }

    /// The long-term key of the server at a place.
    pub fn key(&self, place: usize) -> [u8; 32] {
        self.servers[place].long_term.public
    }

    /// Signs the response of a pair, by any server. Where one of the answers about it is to be a
    /// no, that signature is forged, in any way.
    pub fn sign(&self, random: &mut Xorshift, pair: &mut Pair) -> Signed {
        let forged = [pair.delegation, pair.signature]
            .map(|right| (!right).then(|| random.pick(&FORGERIES)));
        self.sign_as(random, pair, forged)
    }

    /// The same with each signature forged in a given way, or right.
    pub fn sign_as(
        &self,
        random: &mut Xorshift,
        pair: &mut Pair,
        forged: [Option<Forgery>; 2],
    ) -> Signed {
        let place = random.below(self.servers.len());
        self.sign_by(random, place, &mut pair.response, forged)
    }

    /// The same of a response, by the server at a place.
    pub fn sign_by(
        &self,
        random: &mut Xorshift,
        place: usize,
        fields: &mut ResponseFields,
        forged: [Option<Forgery>; 2],
    ) -> Signed {
        let [own, other] = [0, 1].map(|step| &self.servers[(place + step) % self.servers.len()]);
        fields.pubk = key_of(random, forged[1], &own.delegated, &other.delegated);
        let plan = fields.plan();
        let value = |level: Level| message::encode(&plan.messages[level as usize]);
        let (dele, srep) = (value(Level::Dele), value(Level::Srep));
        let delegation = Part { secret: &own.long_term, context: text::DELEGATION, value: &dele };
        let response = Part { secret: &own.delegated, context: text::RESPONSE, value: &srep };
        let others = [&other.long_term, &other.delegated];
        let sign = |random: &mut Xorshift, how, part, beside, another| {
            self.signature(random, how, part, beside, another).to_vec()
        };
        fields.cert_sig = sign(random, forged[0], delegation, response, others[0]);
        fields.sig = sign(random, forged[1], response, delegation, others[1]);
        let key = key_of(random, forged[0], &own.long_term, others[0]);
        Signed { key, forged }
    }

    /// The signature of a part, beside which the response has another.
    fn signature(
        &self,
        random: &mut Xorshift,
        forged: Option<Forgery>,
        part: Part,
        beside: Part,
        another: &Secret,
    ) -> [u8; 64] {
        let unended = &part.context[..part.context.len() - 1];
        let mut value = part.value.to_vec();
        if forged == Some(Forgery::BitOfValue) {
            turn(random, &mut value);
        }
        let (secret, text) = match forged {
            Some(Forgery::BitOfValue) => (part.secret, Part { value: &value, ..part }.text()),
            Some(Forgery::NoContext) => (part.secret, value),
            Some(Forgery::NoZeroByte) => (part.secret, Part { context: unended, ..part }.text()),
            Some(Forgery::OtherContext) => {
                (part.secret, Part { context: beside.context, ..part }.text())
            }
            Some(Forgery::OtherServer) => (another, part.text()),
            Some(Forgery::OtherKey) => (beside.secret, part.text()),
            Some(Forgery::OtherSignature) => (beside.secret, beside.text()),
            _ => (part.secret, part.text()),
        };
        spoilt(random, forged, self.ed25519.sign(secret, &text))
    }
}

/// What became of a signature after it was made.
fn spoilt(random: &mut Xorshift, forged: Option<Forgery>, mut signature: [u8; 64]) -> [u8; 64] {
    let s = Number::from_bytes(signature[32..].try_into().expect("half of 64 bytes"));
    match forged {
        Some(Forgery::BitOfR) => turn(random, &mut signature[..32]),
        Some(Forgery::BitOfS) => turn(random, &mut signature[32..]),
        Some(Forgery::AddedL) => signature[32..].copy_from_slice(&s.plus(L).0.to_bytes()),
        Some(Forgery::NegativeS) => signature[32..].copy_from_slice(&L.minus(s).to_bytes()),
        Some(Forgery::Halves) => signature.rotate_left(32),
        Some(Forgery::AnyBytes) => signature = random.bytes(64).try_into().expect("64 bytes"),
        _ => (),
    }
    signature
}
