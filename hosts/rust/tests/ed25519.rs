//! Ed25519: the proved library and the independent implementation must agree on every key, text and
//! signature, on RFC 8032's own, on ones that were damaged, and at the borders.

mod support;

use independent::appendix;
use independent::ed25519::Ed25519;
use support::rfc_8032::{self, Entry};
use support::signed::{self, Case, Maker, DAMAGES};
use support::{counted, Xorshift};
use trawlbeacon::{PacketRefusal, LONGEST_TEXT};

/// How many signatures are made, each verified as it is and damaged in one way.
const SIGNATURES: usize = 20_000;

const COUNTED: &str = "signatures, right, damaged and at borders";

#[test]
fn rfc_8032_section_7_1() {
    let ed25519 = Ed25519::new();
    for Entry { seed, key, text, signature } in rfc_8032::entries() {
        let secret = ed25519.secret(&seed);
        assert_eq!(secret.public, key);
        assert_eq!(ed25519.sign(&secret, &text), signature);
        assert!(ed25519.verify(&key, &text, &signature));
        assert!(trawlbeacon::verify(&key, &text, &signature));
        for at in 0..=text.len() {
            let (context, value) = text.split_at(at);
            assert!(trawlbeacon::verify_parts(&key, context, value, &signature));
        }
    }
    println!("RFC 8032, section 7.1: five signatures verify, and the independent side makes them");
}

/// The two contexts of draft 19, 5.2.1 and 5.2.6, with their zero bytes.
const CONTEXTS: [&[u8]; 2] =
    [b"RoughTime v1 delegation signature\0", b"RoughTime v1 response signature\0"];

/// A text that the library writes.
fn written(
    write: fn(&[u8], &mut [u8]) -> Result<usize, PacketRefusal>,
    response: &[u8],
) -> Vec<u8> {
    let mut out = vec![0; LONGEST_TEXT];
    let length = write(response, &mut out).expect("it is a response");
    out.truncate(length);
    out
}

/// The six signatures of draft 19's report, over the texts that the library writes and over a
/// context and a value.
#[test]
fn draft_19_appendix_b() {
    let ed25519 = Ed25519::new();
    for appendix::Entry { key, response, .. } in appendix::entries() {
        let parts = trawlbeacon::signed_parts(&response).expect("it is a response");
        let signed = [
            (written(trawlbeacon::delegation_text, &response), key, parts.delegation),
            (written(trawlbeacon::response_text, &response), parts.pubk, parts.signature),
        ];
        for (at, (text, key, signature)) in signed.iter().enumerate() {
            let value = text.strip_prefix(CONTEXTS[at]).expect("the context comes first");
            assert!(trawlbeacon::verify(key, text, signature));
            assert!(trawlbeacon::verify_parts(key, CONTEXTS[at], value, signature));
            assert!(ed25519.verify(key, text, signature));
            let without = &CONTEXTS[at][..CONTEXTS[at].len() - 1];
            assert!(!trawlbeacon::verify_parts(key, without, value, signature), "no zero byte");
            assert!(!trawlbeacon::verify_parts(key, CONTEXTS[1 - at], value, signature));
        }
    }
    println!("draft 19, appendix B: 6 signatures, which ours and independent verify");
}

/// Both sides' answer, which must be one.
fn answer(ed25519: &Ed25519, random: &mut Xorshift, case: &Case) -> bool {
    let Case { what, key, text, signature } = case;
    let due = ed25519.verify(key, text, signature);
    assert_eq!(trawlbeacon::verify(key, text, signature), due, "{what}: {key:?} {signature:?}");
    let (context, value) = text.split_at(random.below(text.len() + 1));
    assert_eq!(trawlbeacon::verify_parts(key, context, value, signature), due, "{what}, in parts");
    due
}

#[test]
fn signatures_as_they_are_and_damaged_in_every_way() {
    let mut random = Xorshift::new(0x5eed_0811);
    let maker = Maker::new(&mut random, 200);
    let mut passed = [0; DAMAGES.len()];
    for i in 0..SIGNATURES {
        let good = maker.good(&mut random);
        assert!(answer(&maker.ed25519, &mut random, &good), "signature {i}");
        let kind = i % DAMAGES.len();
        let damaged = maker.damaged(&mut random, &good, kind);
        passed[kind] += usize::from(answer(&maker.ed25519, &mut random, &damaged));
    }
    // A part of small order in the key vanishes where k is such a multiple of 8, 4 or 2.
    for (kind, passed) in passed.iter().enumerate() {
        let by_chance = DAMAGES[kind] == "a key with a part of small order";
        let some = (1..SIGNATURES / DAMAGES.len() / 2).contains(passed);
        assert!(if by_chance { some } else { *passed == 0 }, "{}: {passed}", DAMAGES[kind]);
    }
    println!(
        "{SIGNATURES} signatures verify; damaged, each in one of {} ways, {} of them do, all by keys \
         with a part of small order: ours compared with independent",
        DAMAGES.len(),
        passed.iter().sum::<usize>(),
    );
    counted(2 * SIGNATURES, COUNTED);
}

#[test]
fn what_stands_at_a_border() {
    let mut random = Xorshift::new(0x5eed_0812);
    let ed25519 = Ed25519::new();
    let cases = signed::borders(&mut random);
    let passed = cases.iter().filter(|case| answer(&ed25519, &mut random, case)).count();
    assert!(passed > 20, "{passed}");
    println!("{} signatures at borders, of which {passed} verify, compared", cases.len());
    counted(cases.len(), COUNTED);
}

/// R and the key are 64 bytes before the text, so that its blocks end elsewhere than its bytes.
#[test]
fn texts_around_the_borders_of_blocks() {
    let mut random = Xorshift::new(0x5eed_0813);
    let maker = Maker::new(&mut random, 1);
    let lengths = (0..=330).chain([447, 448, 449, 1000, 4096, 65_536]);
    let mut compared = 0;
    for length in lengths {
        let case = maker.of_length(&mut random, length);
        assert!(answer(&maker.ed25519, &mut random, &case), "{length} bytes");
        let longer = maker.damaged(&mut random, &case, 4);
        assert!(!answer(&maker.ed25519, &mut random, &longer), "{length} bytes and one");
        compared += 2;
    }
    println!("{compared} texts of 0 to 330 bytes and some longer, compared");
    counted(compared, COUNTED);
}

/// Every length of a key and of a signature but the right ones is a no.
#[test]
fn wrong_lengths() {
    let mut random = Xorshift::new(0x5eed_0814);
    let maker = Maker::new(&mut random, 1);
    let Case { key, text, signature, .. } = maker.good(&mut random);
    for length in 0..=200 {
        let other = |bytes: &[u8]| -> Vec<u8> {
            bytes.iter().copied().chain([0; 200]).take(length).collect()
        };
        assert_eq!(trawlbeacon::verify(&other(&key), &text, &signature), length == 32);
        assert_eq!(trawlbeacon::verify(&key, &text, &other(&signature)), length == 64);
    }
}
