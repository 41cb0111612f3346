//! Signing: what the proved library signs is what the independent implementation signs, byte for
//! byte, and verifies. Ed25519 is deterministic (RFC 8032, 5.1.6), so that equal bytes are the whole
//! comparison. `signatures` compares the same with OpenSSL's.

mod support;

use independent::ed25519::Ed25519;
use std::mem::MaybeUninit;
use std::ptr;
use std::thread;
use support::{counted, rfc_8032, Xorshift};
use trawlbeacon::{verify, verify_parts, SigningKey};

const COUNTED: &str = "signatures that are made";

/// How many threads sign, how many seeds each has, and how many texts each seed signs: 100,000
/// signatures in all.
const THREADS: usize = 4;
const SEEDS: usize = 125;
const TEXTS: usize = 200;

/// The longest text, of which some are longer than a packet.
const LONGEST: usize = 2_100;

#[test]
fn rfc_8032_section_7_1() {
    for entry in rfc_8032::entries() {
        let key = SigningKey::new(&entry.seed);
        assert_eq!(key.public_key(), entry.key);
        assert_eq!(key.sign(&entry.text), entry.signature);
        for at in 0..=entry.text.len() {
            let (context, value) = entry.text.split_at(at);
            assert_eq!(key.sign_parts(context, value), entry.signature, "cut at {at}");
        }
    }
    println!("RFC 8032, section 7.1: five public keys and signatures are made as it prints them");
}

/// One seed: its public key, and the signature of a text of each length that is asked for, whole and
/// cut somewhere, by both sides; ours verifies what ours made.
fn agree(ed25519: &Ed25519, seed: [u8; 32], random: &mut Xorshift, lengths: &[usize]) {
    let (key, secret) = (SigningKey::new(&seed), ed25519.secret(&seed));
    assert_eq!(key.public_key(), secret.public, "{seed:?}");
    for length in lengths {
        let text = random.bytes(*length);
        let signature = ed25519.sign(&secret, &text);
        assert_eq!(key.sign(&text), signature, "{seed:?}, {length} bytes");
        let (context, value) = text.split_at(random.below(length + 1));
        assert_eq!(key.sign_parts(context, value), signature, "{seed:?}, {length} bytes in parts");
        assert!(verify(&secret.public, &text, &signature));
        assert!(verify_parts(&secret.public, context, value, &signature));
    }
}

#[test]
fn signatures_of_any_seeds_and_texts() {
    let job = |thread: u64| {
        let mut random = Xorshift::new(0x5eed_0910 + thread);
        let ed25519 = Ed25519::new();
        for _ in 0..SEEDS {
            let lengths: Vec<usize> = (0..TEXTS).map(|_| random.below(LONGEST + 1)).collect();
            let seed = random.array();
            agree(&ed25519, seed, &mut random, &lengths);
        }
    };
    thread::scope(|scope| {
        for thread in 0..THREADS as u64 {
            scope.spawn(move || job(thread));
        }
    });
    let made = THREADS * SEEDS * TEXTS;
    println!(
        "{made} signatures of texts of up to {LONGEST} bytes: ours are independent's, and verify"
    );
    counted(made, COUNTED);
}

/// Seeds whose bytes are all the same, and seeds with one bit.
#[test]
fn seeds_at_a_border() {
    let mut random = Xorshift::new(0x5eed_0920);
    let ed25519 = Ed25519::new();
    let same = [0x00, 0x01, 0x7f, 0x80, 0xff].map(|byte| [byte; 32]);
    let one_bit = (0..256).map(|bit| {
        let mut seed = [0; 32];
        seed[bit / 8] = 1 << (bit % 8);
        seed
    });
    let seeds: Vec<[u8; 32]> = same.into_iter().chain(one_bit).collect();
    for seed in &seeds {
        agree(&ed25519, *seed, &mut random, &[0, 32]);
    }
    counted(2 * seeds.len(), COUNTED);
}

/// Behind the prefix, 32 bytes, and behind R and the key, 64, so that the blocks of the two hashes
/// end elsewhere than the text's bytes.
#[test]
fn texts_around_the_borders_of_blocks() {
    let mut random = Xorshift::new(0x5eed_0921);
    let lengths: Vec<usize> = (0..=330).chain([447, 448, 449, 1000, 4096, 65_536]).collect();
    agree(&Ed25519::new(), random.array(), &mut random, &lengths);
    counted(lengths.len(), COUNTED);
}

/// A text is signed as a whole, wherever it is cut in two, at every place; and another text is not.
#[test]
fn parts_against_the_whole_at_every_place() {
    let mut random = Xorshift::new(0x5eed_0922);
    let mut cut = 0;
    for length in [0, 1, 2, 63, 64, 106, 124, 300] {
        let (key, text) = (SigningKey::new(&random.array()), random.bytes(length));
        let whole = key.sign(&text);
        for at in 0..=length {
            let (context, value) = text.split_at(at);
            assert_eq!(key.sign_parts(context, value), whole, "{length} bytes cut at {at}");
            cut += 1;
        }
        assert_ne!(key.sign_parts(&text, &[0]), whole);
    }
    println!("{cut} places to cut a text at: the parts are signed as the whole is");
}

/// What a server signs by name is what stands behind its context.
#[test]
fn by_their_contexts() {
    let key = SigningKey::new(&[9; 32]);
    let behind = |context: &[u8]| key.sign(&[context, b"a value"].concat());
    assert_eq!(key.sign_dele(b"a value"), behind(b"RoughTime v1 delegation signature\0"));
    assert_eq!(key.sign_srep(b"a value"), behind(b"RoughTime v1 response signature\0"));
}

/// `{:?}` shows the same of every key.
#[test]
fn nothing_of_the_seed_is_shown() {
    for seed in [[0; 32], [0x5a; 32], [0xff; 32]] {
        let key = SigningKey::new(&seed);
        assert_eq!(format!("{key:?}, {key:#?}"), "SigningKey { .. }, SigningKey { .. }");
    }
}

/// After the drop, zeros stand where the seed stood.
#[test]
fn what_is_dropped_is_zeros() {
    let mut place = MaybeUninit::new(SigningKey::new(&[0x5a; 32]));
    let bytes = place.as_ptr().cast::<[u8; 32]>();
    // SAFETY: a key is its 32 bytes of seed. They are there before the drop, and the place stays
    // after it; nobody uses the key again.
    unsafe {
        assert_eq!(ptr::read_volatile(bytes), [0x5a; 32]);
        ptr::drop_in_place(place.as_mut_ptr());
        assert_eq!(ptr::read_volatile(bytes), [0; 32]);
    }
}
