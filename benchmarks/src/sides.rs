//! Whose code is timed, and what a thing that is timed is.

use crate::limits;
use std::hint::black_box;

/// Whose code a time is of.
#[derive(Clone, Copy, PartialEq)]
pub enum Side {
    Ours,
    Independent,
    /// The independent checker once more, over RustCrypto's SHA-512 in the place of its own. No
    /// work of it is made where there is no sha2.
    #[cfg_attr(not(feature = "peer"), allow(dead_code))]
    OverSha2,
    /// RustCrypto's SHA-512 by itself.
    #[cfg_attr(not(feature = "peer"), allow(dead_code))]
    Sha2,
    /// OpenSSL's Ed25519, by itself or below the independent checker. No work of it is made where
    /// OpenSSL is not linked.
    #[cfg_attr(not(feature = "openssl"), allow(dead_code))]
    OpenSsl,
    /// libsodium's Ed25519. No work of it is made where libsodium is not linked.
    #[cfg_attr(not(feature = "sodium"), allow(dead_code))]
    Sodium,
    /// serde_json with base64. No work of it is made where they are not installed.
    #[cfg_attr(not(feature = "json"), allow(dead_code))]
    SerdeJson,
    /// Ours too, the hashing alone, as much of it as a tree needs; of a batch, with its signature.
    Hashing,
    /// Ours too, all rows of the same tree.
    Rows,
    /// Ours too, in steps: a batch, or what a step of a walk cannot do without.
    Steps,
    /// Ours too, over the whole message at once.
    Whole,
    /// Ours too, every pair of windows compared.
    Pairs,
    /// Ours too, one verification alone.
    Verification,
    /// Ours too, on a usual input of the same size.
    Usual,
    /// Ours too, on half as much.
    Half,
}

impl Side {
    pub fn name(self) -> &'static str {
        match self {
            Side::Ours => "ours",
            Side::Independent => "independent",
            Side::OverSha2 => "sha2 checker",
            Side::Sha2 => "sha2",
            Side::OpenSsl => "OpenSSL",
            Side::Sodium => "libsodium",
            Side::SerdeJson => "serde_json",
            Side::Hashing => "hashing",
            Side::Rows => "rows",
            Side::Steps => "steps",
            Side::Whole => "at once",
            Side::Pairs => "pairs",
            Side::Verification => "verification",
            Side::Usual => "usual",
            Side::Half => "half",
        }
    }
}

/// One call of what is timed.
pub type Work<'a> = Box<dyn FnMut() + 'a>;

/// The result goes to `black_box`, or the compiler could leave the call out.
pub fn work<'a, T>(mut call: impl FnMut() -> T + 'a) -> Work<'a> {
    Box::new(move || {
        black_box(call());
    })
}

/// The highest ratio of our time to a side's that passes, and the limit's name in the table.
pub struct Bound {
    pub side: Side,
    pub limit: &'static str,
    pub highest: f64,
    /// Seconds of our time that are not counted.
    pub free: f64,
}

/// What is timed on several sides, on the same bytes.
pub struct Subject<'a> {
    pub name: String,
    /// How many bytes, answers or the like one call is for.
    pub length: usize,
    pub bounds: Vec<Bound>,
    /// Ours first. A subject may lack some of the others.
    pub works: Vec<(Side, Work<'a>)>,
}

impl<'a> Subject<'a> {
    pub fn new(name: impl Into<String>, length: usize, works: Vec<(Side, Work<'a>)>) -> Self {
        Subject { name: name.into(), length, bounds: Vec::new(), works }
    }

    /// By the independent implementation alone.
    pub fn of_two(name: impl Into<String>, length: usize, works: [Work<'a>; 2]) -> Self {
        let [ours, independent] = works;
        Subject::new(name, length, vec![(Side::Ours, ours), (Side::Independent, independent)])
    }

    /// The same, held to a limit of the table.
    pub fn held(self, side: Side, limit: &'static str) -> Self {
        self.held_to(side, limit, limits::highest(limit))
    }

    /// The same, of our time beside so many seconds.
    pub fn held_beside(mut self, side: Side, limit: &'static str, free: f64) -> Self {
        self.bounds.push(Bound { side, limit, highest: limits::highest(limit), free });
        self
    }

    /// The same, held to a multiple of such a limit.
    pub fn held_to(mut self, side: Side, limit: &'static str, highest: f64) -> Self {
        self.bounds.push(Bound { side, limit, highest, free: 0.0 });
        self
    }
}
