//! The curve edwards25519, written from RFC 8032, sections 5.1 to 5.1.4 and 6. The names are those
//! of section 6's Python, and its constants are reckoned as it reckons them, from 121665/121666,
//! 4/5 and 2, so that no long number is typed in here but L.

use crate::number::{Element, Number, P};

/// L, the order of the base point (section 5.1; q in section 6).
pub const L: Number =
    Number([0x5812_631a_5cf5_d3ed, 0x14de_f9de_a2f7_9cd6, 0, 0x1000_0000_0000_0000]);

/// A point in extended homogeneous coordinates: x = X/Z, y = Y/Z, x y = T/Z.
#[derive(Clone, Copy, Debug)]
pub struct Point {
    x: Element,
    y: Element,
    z: Element,
    t: Element,
}

impl Point {
    /// The neutral point.
    pub const NEUTRAL: Point =
        Point { x: Element::ZERO, y: Element::ONE, z: Element::ONE, t: Element::ZERO };

    fn new(x: Element, y: Element) -> Self {
        Point { x, y, z: Element::ONE, t: x.times(y) }
    }

    /// point_equal: x1 / z1 == x2 / z2 and y1 / z1 == y2 / z2.
    pub fn equal(self, other: Self) -> bool {
        self.x.times(other.z) == other.x.times(self.z)
            && self.y.times(other.z) == other.y.times(self.z)
    }

    /// point_compress.
    pub fn encode(self) -> [u8; 32] {
        let inverse = self.z.inverse();
        let (x, y) = (self.x.times(inverse), self.y.times(inverse));
        let mut bytes = y.number().to_bytes();
        bytes[31] |= u8::from(x.odd()) << 7;
        bytes
    }

    /// The point with the other sign of x.
    pub fn negative(self) -> Self {
        let minus = |n: Element| Element::ZERO.minus(n);
        Point { x: minus(self.x), t: minus(self.t), ..self }
    }
}

/// Why bytes stand for no point: the step of section 5.1.3 at which decoding fails.
#[derive(Clone, Copy, Debug, PartialEq, Eq, PartialOrd, Ord)]
pub enum Undecoded {
    /// Step 1: y is p or more.
    PastP,
    /// Step 3: x^2 has no square root.
    NoRoot,
    /// Step 4: x is 0, and its sign is 1.
    MinusZero,
}

/// The curve: its d, a square root of -1, and its base point.
#[derive(Clone, Copy, Debug)]
pub struct Curve {
    d: Element,
    sqrt_m1: Element,
    base: Point,
}

impl Default for Curve {
    fn default() -> Self {
        Curve::new()
    }
}

impl Curve {
    /// The curve edwards25519.
    pub fn new() -> Self {
        let d =
            Element::ZERO.minus(Element::small(121_665)).times(Element::small(121_666).inverse());
        let quarter = shifted(P.minus(Number::small(1)), 2);
        let sqrt_m1 = Element::small(2).power(quarter);
        let mut curve = Curve { d, sqrt_m1, base: Point::NEUTRAL };
        let y = Element::small(4).times(Element::small(5).inverse());
        let x = curve.recover_x(y.number(), false).expect("4/5 is the y of a point");
        curve.base = Point::new(x, y);
        curve
    }

    /// B.
    pub fn base(&self) -> Point {
        self.base
    }

    /// point_add.
    pub fn add(&self, p: Point, q: Point) -> Point {
        let a = p.y.minus(p.x).times(q.y.minus(q.x));
        let b = p.y.plus(p.x).times(q.y.plus(q.x));
        let c = Element::small(2).times(p.t).times(q.t).times(self.d);
        let d = Element::small(2).times(p.z).times(q.z);
        let (e, f, g, h) = (b.minus(a), d.minus(c), d.plus(c), b.plus(a));
        Point { x: e.times(f), y: g.times(h), z: f.times(g), t: e.times(h) }
    }

    /// point_mul: P doubled as P + P, as section 6 has it.
    pub fn times(&self, s: Number, p: Point) -> Point {
        let (mut q, mut p) = (Point::NEUTRAL, p);
        for at in 0..256 {
            if s.bit(at) {
                q = self.add(q, p);
            }
            p = self.add(p, p);
        }
        q
    }

    /// recover_x: by an inversion and a power, and not by 5.1.3's one power for both.
    fn recover_x(&self, y: Number, sign: bool) -> Result<Element, Undecoded> {
        if y >= P {
            return Err(Undecoded::PastP);
        }
        let y = Element::new(y);
        let yy = y.times(y);
        let x2 = yy.minus(Element::ONE).times(self.d.times(yy).plus(Element::ONE).inverse());
        if x2 == Element::ZERO {
            return if sign { Err(Undecoded::MinusZero) } else { Ok(Element::ZERO) };
        }
        let mut x = x2.power(shifted(P.plus(Number::small(3)).0, 3));
        if x.times(x) != x2 {
            x = x.times(self.sqrt_m1);
        }
        if x.times(x) != x2 {
            return Err(Undecoded::NoRoot);
        }
        Ok(if x.odd() == sign { x } else { Element::ZERO.minus(x) })
    }

    /// point_decompress: the point that 32 bytes stand for, or why they stand for none.
    pub fn decode(&self, bytes: &[u8; 32]) -> Result<Point, Undecoded> {
        let mut y = *bytes;
        let sign = y[31] >> 7 == 1;
        y[31] &= 0x7f;
        let y = Number::from_bytes(&y);
        self.recover_x(y, sign).map(|x| Point::new(x, Element::new(y)))
    }
}

/// A number without its lowest bits.
fn shifted(n: Number, bits: usize) -> Number {
    let mut words = [0; 4];
    for (at, word) in words.iter_mut().enumerate() {
        let above = n.0.get(at + 1).map_or(0, |next| next << (64 - bits));
        *word = n.0[at] >> bits | above;
    }
    Number(words)
}

#[cfg(test)]
mod tests {
    use super::*;

    #[test]
    fn the_base_point_has_the_order_l() {
        let curve = Curve::new();
        assert!(curve.times(L, curve.base()).equal(Point::NEUTRAL));
        let less = L.minus(Number::small(1));
        assert!(curve.times(less, curve.base()).equal(curve.base().negative()));
        assert!(!curve.base().x.odd());
    }

    #[test]
    fn what_is_encoded_decodes() {
        let curve = Curve::new();
        let mut point = curve.base();
        for _ in 0..50 {
            let decoded = curve.decode(&point.encode()).expect("it is a point");
            assert!(decoded.equal(point) && decoded.encode() == point.encode());
            point = curve.add(curve.add(point, point), curve.base());
        }
    }

    /// y = 1 has x = 0, and y = 2 has no x; p + 1 stands for 1, and is told as past p with any sign.
    #[test]
    fn what_is_no_point_is_told_by_its_step() {
        let curve = Curve::new();
        let why = |y: Number, sign: u8| {
            let mut bytes = y.to_bytes();
            bytes[31] |= sign << 7;
            curve.decode(&bytes).err()
        };
        let one = Number::small(1);
        assert_eq!((why(one, 0), why(one, 1)), (None, Some(Undecoded::MinusZero)));
        assert_eq!(why(Number::small(2), 0), Some(Undecoded::NoRoot));
        for sign in [0, 1] {
            assert_eq!(why(P, sign), Some(Undecoded::PastP));
            assert_eq!(why(P.plus(one).0, sign), Some(Undecoded::PastP));
        }
    }
}
