//! Verifications that are timed: of a text as long as a delegation's, and of one as long as a
//! response's with many versions. Every signature verifies, so that all of it is worked out.

use crate::hashes;
use crate::openssl;
use crate::run::Run;
use crate::sides::{work, Side, Subject};
use crate::sodium;
use crate::table::{count, Columns, Table, MICROSECONDS};
use independent::ed25519::Ed25519;
use std::hint::black_box;

/// A key, a text and its signature.
pub struct Signed {
    pub key: [u8; 32],
    pub text: Vec<u8>,
    pub signature: [u8; 64],
}

impl Signed {
    /// A text of so many bytes.
    pub fn of(length: usize) -> Self {
        let (ed25519, text) = (Ed25519::new(), hashes::bytes(length + 8));
        let secret = ed25519.secret(&[7; 32]);
        let text = text[..length].to_vec();
        let signature = ed25519.sign(&secret, &text);
        Signed { key: secret.public, text, signature }
    }

    /// A verification on each side that there is.
    fn subject(&self) -> Subject<'_> {
        let Signed { key, text, signature } = self;
        let independent = Ed25519::new();
        assert!(trawlbeacon::verify(key, text, signature), "it is signed");
        let mut works = vec![
            (Side::Ours, work(move || trawlbeacon::verify(black_box(key), text, signature))),
            (Side::Independent, work(move || independent.verify(black_box(key), text, signature))),
        ];
        if openssl::LINKED {
            let theirs = work(move || openssl::verifies(black_box(key), signature, text));
            works.push((Side::OpenSsl, theirs));
        }
        if sodium::LINKED {
            sodium::start();
            assert!(sodium::verifies(key, signature, text), "libsodium takes it");
            let theirs = work(move || sodium::verifies(black_box(key), signature, text));
            works.push((Side::Sodium, theirs));
        }
        let name = format!("{} bytes", count(text.len()));
        Subject::new(name, text.len(), works)
            .held(Side::OpenSsl, "openssl")
            .held(Side::Sodium, "sodium")
    }
}

/// The columns of one verification.
const COLUMNS: Columns = Columns {
    sides: &[Side::Ours, Side::Independent, Side::OpenSsl, Side::Sodium],
    ..MICROSECONDS
};

pub fn part(run: &mut Run) {
    let signed = [106, 1_000].map(Signed::of);
    let subjects = signed.iter().map(Signed::subject).collect();
    let table = Table::new("verify", "one verification, by its text", &["Text"]);
    run.table(table, &COLUMNS, subjects);
}
