//! Answers as draft 19, section 7, has servers spoil them on purpose.
//!
//! Each begins as one that the library wrote. None has a wrong time under a signature that leads to
//! the long-term key.

use crate::delegation::Delegation;
use crate::draw::Draw;
use crate::pairs::{Pairs, Tag};
use crate::timekeeper::Told;
use trawlbeacon::{response_length, Reply, SigningKey, SREP_LENGTH};

/// The tags that a response must have (5.2).
pub const MANDATORY: [&Tag; 7] = [b"SIG\0", b"NONC", b"TYPE", b"PATH", b"SREP", b"CERT", b"INDX"];

/// The letters of a tag.
const LETTERS: u64 = 26;

/// The most words that an undefined tag's value has here.
const WORDS: u64 = 8;

/// Versions from here on are for tests of drafts, and no released one will be among them.
const UNRELEASED: u32 = 0x8000_0000;

/// What an answer is spoilt with.
pub struct Spoiling<'a> {
    pub request: &'a [u8],
    /// The right answer, as the library wrote it.
    pub answer: &'a [u8],
    pub delegation: &'a Delegation,
    pub key: &'a SigningKey,
    pub told: Told,
}

impl Spoiling<'_> {
    /// A time at the other end of the delegation. None is there where the true one's window meets
    /// it: that would not be incorrect.
    fn wrong_time(&self) -> Option<u64> {
        let (Delegation { mint, maxt, .. }, Told { midp, radi }) = (self.delegation, self.told);
        let far = if midp.abs_diff(*mint) > midp.abs_diff(*maxt) { *mint } else { *maxt };
        (midp.abs_diff(far) > 2 * u64::from(radi)).then_some(far)
    }

    /// An answer that is by itself the whole of its tree, with this time, CERT and signature.
    fn written(&self, midp: u64, cert: &[u8], signature: &[u8; 64]) -> Option<Vec<u8>> {
        let (request, root) = (self.request, trawlbeacon::leaf(self.request));
        let radi = self.told.radi;
        let reply = Reply { request, indx: 0, root: &root, path: &[], midp, radi, cert, signature };
        let mut out = vec![0; response_length(0, cert.len())];
        trawlbeacon::write_response(&reply, &mut out).ok()?;
        Some(out)
    }

    fn srep(&self, midp: u64) -> Option<[u8; SREP_LENGTH]> {
        let (root, mut srep) = (trawlbeacon::leaf(self.request), [0; SREP_LENGTH]);
        trawlbeacon::write_srep(&root, midp, self.told.radi, &mut srep).ok()?;
        Some(srep)
    }

    /// A wrong time, and the signature of the true one.
    pub fn time(&self) -> Option<Vec<u8>> {
        let signature = self.key.sign_srep(&self.srep(self.told.midp)?);
        self.written(self.wrong_time()?, &self.delegation.cert, &signature)
    }

    /// A wrong time, signed by a key that nobody delegated to: CERT has the signature of another
    /// DELE. It is `other`, which signs nothing else, and least of all the true server's times.
    pub fn delegation(&self, other: &SigningKey) -> Option<Vec<u8>> {
        let Delegation { mint, maxt, cert, .. } = self.delegation;
        let pairs = Pairs::of(cert)?;
        let signature = pairs.value(b"SIG\0")?.try_into().ok()?;
        let mut forged = vec![0; trawlbeacon::CERT_LENGTH];
        let pubk = other.public_key();
        trawlbeacon::write_cert(&pubk, *mint, *maxt, signature, &mut forged).ok()?;
        let far = self.wrong_time()?;
        self.written(far, &forged, &other.sign_srep(&self.srep(far)?))
    }

    /// One of the mandatory tags is not there.
    pub fn missing(&self, tag: &Tag) -> Option<Vec<u8>> {
        let mut pairs = Pairs::of_packet(self.answer)?;
        pairs.take_out(tag);
        Some(pairs.packet())
    }

    /// A version that the request does not have, with the true time and good signatures.
    pub fn version(&self, draw: &mut Draw) -> Option<Vec<u8>> {
        let request = Pairs::of_packet(self.request)?;
        let asked = request.value(b"VER\0")?;
        let mut number = [0; 4];
        draw.fill(&mut number);
        let version = (u32::from_le_bytes(number) | UNRELEASED).to_le_bytes();
        // A request has 32 of 2^31 at the most: next time there will be another.
        if asked.chunks(4).any(|known| known == version) {
            return None;
        }
        self.signed_again(|srep| {
            srep.put(*b"VER\0", &version);
            srep.put(*b"VERS", &version);
        })
    }

    /// A tag more that nobody has defined, in the answer. All else is right, and the answer good.
    pub fn undefined(&self, draw: &mut Draw) -> Option<Vec<u8>> {
        let mut pairs = Pairs::of_packet(self.answer)?;
        put_undefined(&mut pairs, draw);
        Some(pairs.packet())
    }

    /// The same in SREP, where it is signed.
    pub fn undefined_signed(&self, draw: &mut Draw) -> Option<Vec<u8>> {
        self.signed_again(|srep| put_undefined(srep, draw))
    }

    /// The right answer with its SREP changed, and signed as it is then. What is changed must not be
    /// the time.
    fn signed_again(&self, change: impl FnOnce(&mut Pairs)) -> Option<Vec<u8>> {
        let mut pairs = Pairs::of_packet(self.answer)?;
        let mut srep = Pairs::of(pairs.value(b"SREP")?)?;
        change(&mut srep);
        let srep = srep.message();
        pairs.put(*b"SIG\0", &self.key.sign_srep(&srep));
        pairs.put(*b"SREP", &srep);
        Some(pairs.packet())
    }
}

fn put_undefined(pairs: &mut Pairs, draw: &mut Draw) {
    // The second letter is an X, which that of no tag of the draft is.
    let mut letter = || b'A' + draw.below(LETTERS) as u8;
    let tag = [letter(), b'X', letter(), letter()];
    let mut value = vec![0; 4 * draw.below(WORDS + 1) as usize];
    draw.fill(&mut value);
    pairs.put(tag, &value);
}
