//! Ed25519, written from RFC 8032, sections 5.1.5 to 5.1.7 and 6: keys, signatures and their
//! verification without the cofactor.

use crate::edwards::{Curve, Point, L};
use crate::number::Number;
use crate::sha512::sha512;

/// What signs and verifies: the curve.
#[derive(Clone, Copy, Debug, Default)]
pub struct Ed25519 {
    curve: Curve,
}

/// A secret key (section 5.1.5), and the public one.
#[derive(Clone, Debug)]
pub struct Secret {
    /// s, its bits set and cleared as 5.1.5 says.
    scalar: Number,
    /// The second half of the hash of the secret.
    prefix: [u8; 32],
    /// The encoding of A, under which its signatures verify.
    pub public: [u8; 32],
}

/// SHA-512 of parts one after the other, modulo L: sha512_modq.
fn sha512_modq(parts: &[&[u8]]) -> Number {
    let digest = sha512(&parts.concat());
    let half = |from: usize| {
        Number::from_bytes(digest[from..from + 32].try_into().expect("half of 64 bytes"))
    };
    Number::modulo(half(0), half(32), L)
}

/// a b + c modulo L.
fn times_plus(a: Number, b: Number, c: Number) -> Number {
    let (low, high) = a.times(b);
    let product = Number::modulo(low, high, L);
    Number::modulo(product.plus(c).0, Number::ZERO, L)
}

impl Ed25519 {
    /// Reckons the curve's constants.
    pub fn new() -> Self {
        Ed25519::default()
    }

    /// The curve.
    pub fn curve(&self) -> &Curve {
        &self.curve
    }

    /// Section 5.1.5: the key that these 32 bytes make.
    pub fn secret(&self, seed: &[u8; 32]) -> Secret {
        let digest = sha512(seed);
        let mut lower: [u8; 32] = digest[..32].try_into().expect("half of 64 bytes");
        lower[0] &= 0b1111_1000;
        lower[31] &= 0b0111_1111;
        lower[31] |= 0b0100_0000;
        let scalar = Number::from_bytes(&lower);
        let prefix = digest[32..].try_into().expect("half of 64 bytes");
        let public = self.curve.times(scalar, self.curve.base()).encode();
        Secret { scalar, prefix, public }
    }

    /// Section 5.1.6: the signature of a text.
    pub fn sign(&self, secret: &Secret, text: &[u8]) -> [u8; 64] {
        self.sign_as(secret, &secret.public, Point::NEUTRAL, text)
    }

    /// The same, with `public` in the place of the public key, and `more` added to R: for keys and
    /// signatures that have a part of small order, which verify with the cofactor, and without it
    /// only by chance.
    pub fn sign_as(&self, secret: &Secret, public: &[u8], more: Point, text: &[u8]) -> [u8; 64] {
        let r = sha512_modq(&[&secret.prefix, text]);
        let point = self.curve.add(self.curve.times(r, self.curve.base()), more).encode();
        let k = sha512_modq(&[&point, public, text]);
        let s = times_plus(k, secret.scalar, r);
        [point, s.to_bytes()].concat().try_into().expect("twice 32 bytes")
    }

    /// Section 5.1.7: whether the signature of the text verifies under the key. A key of another
    /// length than 32, or a signature of another than 64, is a no.
    pub fn verify(&self, key: &[u8], text: &[u8], signature: &[u8]) -> bool {
        let (Ok(key), 64) = (<&[u8; 32]>::try_from(key), signature.len()) else { return false };
        let half = |from: usize| -> [u8; 32] {
            signature[from..from + 32].try_into().expect("half of 64 bytes")
        };
        let (Ok(a), Ok(r)) = (self.curve.decode(key), self.curve.decode(&half(0))) else {
            return false;
        };
        let s = Number::from_bytes(&half(32));
        s < L && self.equation(a, r, s, sha512_modq(&[&half(0), key, text]))
    }

    /// [S]B = R + [k]A.
    fn equation(&self, a: Point, r: Point, s: Number, k: Number) -> bool {
        let left = self.curve.times(s, self.curve.base());
        left.equal(self.curve.add(r, self.curve.times(k, a)))
    }
}
