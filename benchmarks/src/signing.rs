//! Signatures that are timed: of a text as long as a delegation's, and of a longer one; and a public
//! key. Each side has its key made before, but that ours has the public key made anew in each call,
//! of the seed, which the others keep beside it.

use crate::hashes;
use crate::openssl;
use crate::run::Run;
use crate::sides::{work, Side, Subject, Work};
use crate::sodium;
use crate::table::{count, Columns, Table, MICROSECONDS};
use independent::ed25519::Ed25519;
use std::hint::black_box;
use trawlbeacon::SigningKey;

const SEED: [u8; 32] = [7; 32];

/// A signature on each side that there is, all of which are the same.
fn signature(text: &[u8]) -> Subject<'_> {
    let (ours, independent) = (SigningKey::new(&SEED), Ed25519::new());
    let (secret, due) = (independent.secret(&SEED), ours.sign(text));
    assert_eq!(independent.sign(&secret, text), due);
    let mut works: Vec<(Side, Work)> = vec![
        (Side::Ours, work(move || ours.sign(black_box(text)))),
        (Side::Independent, work(move || independent.sign(&secret, black_box(text)))),
    ];
    if openssl::LINKED {
        let theirs = openssl::Signer::new(&SEED);
        assert_eq!(theirs.sign(text), due);
        works.push((Side::OpenSsl, work(move || theirs.sign(black_box(text)))));
    }
    if sodium::LINKED {
        let theirs = sodium::Signer::new(&SEED);
        assert_eq!(theirs.sign(text), due);
        works.push((Side::Sodium, work(move || theirs.sign(black_box(text)))));
    }
    let name = format!("{} bytes", count(text.len()));
    Subject::new(name, text.len(), works).held(Side::OpenSsl, "openssl_sign")
}

/// The public key of a seed on each side that there is: a whole key is made of it.
fn public_key() -> Subject<'static> {
    let (ours, independent) = (SigningKey::new(&SEED), Ed25519::new());
    let mut works: Vec<(Side, Work)> = vec![
        (Side::Ours, work(move || black_box(&ours).public_key())),
        (Side::Independent, work(move || independent.secret(black_box(&SEED)).public)),
    ];
    if openssl::LINKED {
        works.push((Side::OpenSsl, work(|| openssl::Signer::new(black_box(&SEED)).key())));
    }
    if sodium::LINKED {
        works.push((Side::Sodium, work(|| sodium::Signer::new(black_box(&SEED)).key())));
    }
    Subject::new("the public key", 32, works)
}

/// The columns of one signature.
const COLUMNS: Columns = Columns {
    sides: &[Side::Ours, Side::Independent, Side::OpenSsl, Side::Sodium],
    ..MICROSECONDS
};

pub fn part(run: &mut Run) {
    let texts = [106, 1_000].map(|length| hashes::bytes(length + 8)[..length].to_vec());
    let mut subjects: Vec<Subject> = texts.iter().map(|text| signature(text)).collect();
    subjects.push(public_key());
    let table = Table::new("sign", "one signature, by its text, and a public key", &["Text"]);
    run.table(table, &COLUMNS, subjects);
}
