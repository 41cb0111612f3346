//! Ed25519 at the borders of limbs: the proved library has numbers modulo p in five limbs of 51
//! bits, the independent one in four words of 64. Both must say the same of keys, R and S at and
//! around each border.
//!
//! Nobody can sign with a key, or for an R, of which only y is known: those are compared as noes, in
//! which the point is sought and, where there is one, the whole equation is worked out. A yes is
//! seen of every S, under a key of small order, and of keys and R whose limbs came near a border
//! among many.

mod support;

use independent::ed25519::{Ed25519, Secret};
use independent::edwards::{Point, L};
use independent::number::{Number, P};
use support::{counted, Xorshift};

const COUNTED: &str = "signatures with numbers at the borders of limbs";

/// How far from a border.
const AROUND: u64 = 40;

/// How many keys are made, of which those with the least and the greatest limbs are taken.
const KEYS: usize = 4096;

/// How many texts each of these signs.
const TEXTS: usize = 400;

/// 2^n.
fn power(n: usize) -> Number {
    let mut words = [0; 4];
    words[n / 64] = 1 << (n % 64);
    Number(words)
}

/// All numbers within 40 of one, which is no less.
fn around(border: Number) -> impl Iterator<Item = Number> {
    let least = border.minus(Number::small(AROUND));
    (0..=2 * AROUND).map(move |more| least.plus(Number::small(more)).0)
}

/// Numbers, each once.
fn each_once(mut numbers: Vec<Number>) -> Vec<Number> {
    numbers.sort_unstable();
    numbers.dedup();
    numbers
}

/// What both sides say of a signature, which must be one.
fn answer(ed25519: &Ed25519, key: &[u8; 32], text: &[u8], r: &[u8; 32], s: &[u8; 32]) -> bool {
    let signature = [*r, *s].concat();
    let due = ed25519.verify(key, text, &signature);
    assert_eq!(trawlbeacon::verify(key, text, &signature), due, "{key:?} {text:?} {signature:?}");
    due
}

/// A number of 255 bits as y, with both signs.
fn encodings(y: Number) -> [[u8; 32]; 2] {
    [0, 0x80].map(|sign| {
        let mut bytes = y.to_bytes();
        bytes[31] |= sign;
        bytes
    })
}

/// Every y around the borders of limbs, p and 2^255, as the key, as R and as both, beside a right
/// signature's other parts and beside the neutral point with S = 0.
#[test]
fn every_y_around_a_border() {
    let ed25519 = Ed25519::new();
    let secret = ed25519.secret(&[9; 32]);
    let signature = ed25519.sign(&secret, b"a text");
    let half = |from: usize| signature[from..from + 32].try_into().expect("half of 64 bytes");
    let (r, s, none): ([u8; 32], [u8; 32], [u8; 32]) = (half(0), half(32), [0; 32]);
    let neutral = Point::NEUTRAL.encode();
    let borders = [power(51), power(102), power(153), power(204), P, power(255)];
    let mut found = [0, 0];
    let mut compared = 0;
    for y in each_once(borders.into_iter().flat_map(around).filter(|y| *y < power(255)).collect()) {
        for bytes in encodings(y) {
            found[usize::from(ed25519.curve().decode(&bytes).is_ok())] += 1;
            let cases = [
                (&bytes, &r, &s),
                (&secret.public, &bytes, &s),
                (&bytes, &neutral, &none),
                (&neutral, &bytes, &none),
                (&bytes, &bytes, &s),
            ];
            for (key, r, s) in cases {
                // p - 1 is the y of the point of order 2, which an even k takes away.
                let passed = answer(&ed25519, key, b"a text", r, s);
                assert!(!passed || y == P.minus(Number::small(1)), "{y:?}");
                compared += 1;
            }
        }
    }
    assert!(found[0] > 200 && found[1] > 200, "{found:?}");
    println!("y at borders of limbs: {} are of no point, {} of one", found[0], found[1]);
    counted(compared, COUNTED);
}

/// S around the borders of limbs, of L and of 2^256, and at and beside every power of 2 below L,
/// where windows begin.
fn scalars() -> Vec<Number> {
    let one = Number::small(1);
    let borders = [power(51), power(102), power(153), power(204), power(252), L, power(255)];
    let last = Number::ZERO.minus(Number::small(AROUND));
    let most = (0..AROUND).map(|more| last.plus(Number::small(more)).0);
    let powers = (0..=252).map(power).flat_map(|n| [n.minus(one), n, n.plus(one).0]);
    each_once(borders.into_iter().flat_map(around).chain(most).chain(powers).collect())
}

/// Under the neutral point as key R is [S]B, whatever k is: a yes for every S below L, and with
/// another R, and from L on, a no. Under the point of order 2, (0, -1), it is [S]B or that point
/// added to it, by k's lowest bit: one of the two verifies.
#[test]
fn every_s_around_a_border() {
    let ed25519 = Ed25519::new();
    let (curve, neutral) = (ed25519.curve(), Point::NEUTRAL.encode());
    let second = P.minus(Number::small(1)).to_bytes();
    let of_order_2 = curve.decode(&second).expect("it is a point");
    let (mut compared, mut passed) = (0, 0);
    for s in scalars() {
        let (point, bytes, below) = (curve.times(s, curve.base()), s.to_bytes(), s < L);
        let [right, next, other] =
            [Point::NEUTRAL, curve.base(), of_order_2].map(|more| curve.add(point, more).encode());
        assert_eq!(answer(&ed25519, &neutral, b"", &right, &bytes), below, "{s:?}");
        assert!(!answer(&ed25519, &neutral, b"", &next, &bytes), "{s:?}");
        // k hangs on R, so that neither, one or both of them may be right.
        let either = [right, other].map(|r| answer(&ed25519, &second, b"", &r, &bytes));
        assert!(below || either == [false; 2], "{s:?}");
        passed += usize::from(below) + either.into_iter().map(usize::from).sum::<usize>();
        compared += 4;
    }
    println!("{compared} signatures with S at borders of limbs, of which {passed} verify");
    counted(compared, COUNTED);
}

/// The limbs of the y of a key.
fn limbs(key: &[u8; 32]) -> [u64; 5] {
    let y = Number::from_bytes(key);
    [0, 1, 2, 3, 4]
        .map(|limb| (0..51).fold(0, |sum, bit| sum | u64::from(y.bit(51 * limb + bit)) << bit))
}

/// Of many keys those with the least and with the greatest limb, in each place.
fn extreme(ed25519: &Ed25519, random: &mut Xorshift) -> Vec<Secret> {
    let secrets: Vec<Secret> = (0..KEYS).map(|_| ed25519.secret(&random.array())).collect();
    let by = |limb: usize| move |secret: &&Secret| limbs(&secret.public)[limb];
    let both =
        |limb: usize| [secrets.iter().min_by_key(by(limb)), secrets.iter().max_by_key(by(limb))];
    (0..5).flat_map(both).flatten().cloned().collect()
}

/// Each signs some texts, all of which verify; and none with another text.
#[test]
fn keys_with_limbs_near_a_border() {
    let mut random = Xorshift::new(0x5eed_0821);
    let ed25519 = Ed25519::new();
    let secrets = extreme(&ed25519, &mut random);
    assert_eq!(secrets.len(), 10);
    for secret in &secrets {
        for _ in 0..TEXTS {
            let text = random.array();
            let signature = ed25519.sign(secret, &text);
            let half = |from: usize| signature[from..from + 32].try_into().expect("half of 64");
            let (r, s) = (half(0), half(32));
            assert!(answer(&ed25519, &secret.public, &text, &r, &s));
            assert!(!answer(&ed25519, &secret.public, &text[1..], &r, &s));
        }
    }
    counted(2 * secrets.len() * TEXTS, COUNTED);
}
