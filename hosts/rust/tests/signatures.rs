//! OpenSSL's Ed25519 as a third opinion. The whole of a check with it: the signatures of draft 19's
//! report verify under its keys, over the texts and with the parts that the library hands out, and
//! nothing else does. What the library signs is what OpenSSL signs, byte for byte, and OpenSSL
//! verifies it; and so it does both signatures of each response to a batch. The example that asks
//! OpenSSL is tried here, too, where it cannot write what it found.

mod openssl;
#[path = "../examples/serving/mod.rs"]
mod serving;
mod support;
#[path = "support/written.rs"]
mod written;

use independent::appendix::{self, Entry};
use openssl::{by_the_parts, text, verifies, Signer};
use serving::{delegated, RADI};
use std::thread;
use support::Xorshift;
use trawlbeacon::{
    raw, Batch, Pair, Pile, Record, Refusal, Run, SigningKey, RECORD_LENGTH, REQUEST_LENGTH,
};

/// How many threads sign, how many seeds each has, and how many texts each seed signs: 100,000
/// signatures in all, of texts of up to so many bytes.
const THREADS: usize = 4;
const SEEDS: usize = 250;
const TEXTS: usize = 100;
const LONGEST: usize = 2_100;

/// RFC 8032, section 7.1, test 2: OpenSSL is called rightly.
#[test]
fn openssl_signs_as_its_standard_says() {
    let array = |text: &str| -> Vec<u8> {
        (0..text.len())
            .step_by(2)
            .map(|at| u8::from_str_radix(&text[at..at + 2], 16).unwrap())
            .collect()
    };
    let seed = array("4ccd089b28ff96da9db6c346ec114e0f5b8a319f35aba624da8cf6ed4fb8a6fb");
    let signer = Signer::new(&seed.try_into().unwrap());
    let key = array("3d4017c3e843895a92b70aa74d1b7ebc9c982ccf2ec4968cc0cd55f12af4660c");
    assert_eq!(signer.key()[..], key);
    let signature = signer.sign(&[0x72]);
    let due = array(
        "92a009a9f0d4cab8720e820b5f642540a2b27b5416503f8fb3762223ebdb69da\
         085ac1e43e15996e458f3613d0f11d8c387b2eaeb4302aeeb00d291612bb0c00",
    );
    assert_eq!(signature[..], due);
    assert!(verifies(&signer.key(), &signature, &[0x72]));
    assert!(!verifies(&signer.key(), &signature, &[0x73]));
}

#[test]
fn both_signatures_of_each_response_of_the_report_verify() {
    let entries = appendix::entries();
    for (index, Entry { key, request, response, .. }) in entries.iter().enumerate() {
        let (delegation, signature) = by_the_parts(key, response);
        assert_eq!((delegation, signature), (true, true), "entry {index}");
        let checked = trawlbeacon::check_response(request, response, delegation, signature);
        assert!(checked.is_ok(), "entry {index}: {checked:?}");
        for other in entries.iter().filter(|other| other.key != *key) {
            assert_eq!(by_the_parts(&other.key, response), (false, true), "another server's key");
        }
    }
    println!("draft 19, appendix B: 6 signatures, which OpenSSL verifies with what ours hands out");
}

/// A bit turned in either signature, in the delegated key or in either text.
#[test]
fn nothing_else_verifies() {
    let mut turned = 0;
    for Entry { key, response, .. } in appendix::entries() {
        let parts = trawlbeacon::signed_parts(&response).expect("it is a response");
        let delegation = text(trawlbeacon::delegation_text, &response);
        let signed = text(trawlbeacon::response_text, &response);
        for bit in (0..512).step_by(5) {
            let (mut one, mut other) = (parts.signature, parts.delegation);
            one[bit / 8] ^= 1 << (bit % 8);
            other[bit / 8] ^= 1 << (bit % 8);
            assert!(!verifies(&parts.pubk, &one, &signed) && !verifies(&key, &other, &delegation));
            let mut pubk = parts.pubk;
            pubk[bit / 8 % 32] ^= 1 << (bit % 8);
            assert!(!verifies(&pubk, &parts.signature, &signed));
            turned += 3;
        }
        for bit in 0..8 * delegation.len().min(signed.len()) {
            let (mut one, mut other) = (signed.clone(), delegation.clone());
            one[bit / 8] ^= 1 << (bit % 8);
            other[bit / 8] ^= 1 << (bit % 8);
            assert!(!verifies(&parts.pubk, &parts.signature, &one));
            assert!(!verifies(&key, &parts.delegation, &other));
            turned += 2;
        }
    }
    println!(
        "{turned} signatures, keys and texts with a bit turned, of which OpenSSL verifies none"
    );
}

/// The report as a host would gather it: each record with the answers that its signatures have.
#[test]
fn a_pile_is_gathered_with_its_answers() {
    let mut pile = Pile::new();
    for Entry { key, rand, request, response } in appendix::entries() {
        let record = Record::new(&key, &rand.unwrap_or([0; 32]), &request, &response);
        let (delegation, signature) = by_the_parts(&key, &response);
        pile.push(&record.expect("both fit"), delegation, signature).expect("there is room");
    }
    assert_eq!(pile.answers(), [1; 6]);
    assert_eq!(pile.check_report(), Ok(Pair { first: 0, second: 1 }));
    let cut = pile.cut().expect("two records contradict each other");
    assert_eq!(cut.run, Run { first: 0, last: 1 });
    assert!(cut.bytes == pile.bytes()[..2 * RECORD_LENGTH]);
}

/// What OpenSSL answers where it fails is no yes, though C would take it for true.
#[test]
fn a_library_that_fails_has_said_no() {
    let failing = Signer::new(&[7; 32]).failing();
    assert!(failing < 0, "OpenSSL answers {failing}");
    let Entry { request, response, .. } = &appendix::entries()[0];
    let code = |delegation, signature| {
        let ((from, n), (to, m)) =
            ((request.as_ptr(), request.len()), (response.as_ptr(), response.len()));
        // SAFETY: the library only reads both packets.
        unsafe {
            raw::tb_check_response(from, raw::size(n), to, raw::size(m), delegation, signature)
        }
        .code
    };
    assert_eq!(code(1, 1), 0);
    for no in [failing as u32, -1i32 as u32] {
        assert_eq!(code(no, 1), Refusal::Delegation.code());
        assert_eq!(code(1, no), Refusal::Signature.code());
        assert_eq!(code(no, no), Refusal::Delegation.code());
    }
}

/// One seed: its public key, and texts that it signs. Ed25519 is deterministic, so that equal bytes
/// are the whole comparison.
fn sign_alike(seed: [u8; 32], random: &mut Xorshift, texts: usize) {
    let (ours, theirs) = (SigningKey::new(&seed), Signer::new(&seed));
    let key = ours.public_key();
    assert_eq!(key, theirs.key(), "{seed:?}");
    for _ in 0..texts {
        let length = random.below(LONGEST + 1);
        let text = random.bytes(length);
        let signature = ours.sign(&text);
        assert_eq!(signature, theirs.sign(&text), "{seed:?}, {length} bytes");
        assert!(verifies(&key, &signature, &text) && trawlbeacon::verify(&key, &text, &signature));
    }
}

#[test]
fn ours_and_openssl_sign_alike() {
    let job = |thread: u64| {
        let mut random = Xorshift::new(0x5eed_0930 + thread);
        for _ in 0..SEEDS {
            let seed = random.array();
            sign_alike(seed, &mut random, TEXTS);
        }
    };
    thread::scope(|scope| {
        for thread in 0..THREADS as u64 {
            scope.spawn(move || job(thread));
        }
    });
    let mut random = Xorshift::new(0x5eed_0934);
    for seed in [[0; 32], [0xff; 32]] {
        sign_alike(seed, &mut random, TEXTS);
    }
    let made = (THREADS * SEEDS + 2) * TEXTS;
    println!("{made} signatures of ours are OpenSSL's, byte for byte, and verify by both");
}

/// The response to each of 900 requests, all of one batch.
fn responses(key: &[u8; 32], batch: &mut Batch, midp: u64) -> Vec<Vec<u8>> {
    for client in 0..900_usize {
        let mut request = [0; REQUEST_LENGTH];
        let nonce = trawlbeacon::leaf(&client.to_le_bytes());
        trawlbeacon::write_request(key, &nonce, &mut request).expect("there is room");
        batch.push(&request).expect("so many fit into one");
    }
    assert_eq!(batch.answer(midp, RADI), Ok(900));
    batch.answers().map(|(_, response)| response.to_vec()).collect()
}

#[test]
fn openssl_verifies_every_response_to_a_batch() {
    let (long_term, midp) = (SigningKey::new(&[1; 32]), 1_773_685_571);
    let times = (midp - 60, midp + 60);
    let batch = delegated(&long_term, SigningKey::new(&[2; 32]), times);
    let (key, mut batch) = (long_term.public_key(), batch.expect("there is room"));
    let responses = responses(&key, &mut batch, midp);
    for response in &responses {
        assert_eq!(by_the_parts(&key, response), (true, true));
    }
    println!("{} responses to a batch, whose signatures OpenSSL verifies", responses.len());
}

#[test]
fn the_example_writes_or_is_no_success() {
    written::or_no_success("console", &[]);
}
