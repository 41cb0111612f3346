//! Forged responses, by an attacker who has no key of the server and has seen one response of it.
//!
//! He deceives a host that looks for a key, a signature or a text at the place in the packet where
//! it stands in an ordinary response: a packet may have tags that nobody knows, and a path may have
//! any siblings, so that he moves what is read by its tag and puts what he likes where it stood.
//! The same host is not deceived where it verifies what the library hands out, or leaves that to the
//! library.

mod openssl;

use independent::appendix::{self, Entry};
use independent::hash::{self, Hash};
use independent::tag::*;
use independent::{message, packet, response, text, tree};
use openssl::{by_the_parts, verifies, Signer};
use std::ops::Range;
use trawlbeacon::{Refusal, Window, REQUEST_LENGTH};

/// Where things stand in an ordinary response, which has no tag but those that it needs, and no
/// siblings.
const SIG_AT: Range<usize> = 68..132;
const SREP_AT: Range<usize> = 168..260;
const CERT_SIG_AT: Range<usize> = 276..340;
const DELE_AT: Range<usize> = 340..412;
const PUBK_AT: Range<usize> = 364..396;

fn signature_at(packet: &[u8], place: Range<usize>) -> [u8; 64] {
    packet[place].try_into().expect("a signature has 64 bytes")
}

fn key_at(packet: &[u8], place: Range<usize>) -> [u8; 32] {
    packet[place].try_into().expect("a key has 32 bytes")
}

/// A host that takes the texts from the library, and the signatures and the delegated key from
/// their usual places.
fn parts_at_fixed_places(key: &[u8; 32], packet: &[u8]) -> (bool, bool) {
    let delegation = openssl::text(trawlbeacon::delegation_text, packet);
    let signed = openssl::text(trawlbeacon::response_text, packet);
    let pubk = key_at(packet, PUBK_AT);
    (
        verifies(key, &signature_at(packet, CERT_SIG_AT), &delegation),
        verifies(&pubk, &signature_at(packet, SIG_AT), &signed),
    )
}

/// A host that takes the texts from their usual places as well.
fn all_at_fixed_places(key: &[u8; 32], packet: &[u8]) -> (bool, bool) {
    let delegation = [text::DELEGATION, &packet[DELE_AT]].concat();
    let signed = [text::RESPONSE, &packet[SREP_AT]].concat();
    let pubk = key_at(packet, PUBK_AT);
    (
        verifies(key, &signature_at(packet, CERT_SIG_AT), &delegation),
        verifies(&pubk, &signature_at(packet, SIG_AT), &signed),
    )
}

/// What a host is told of the time where it answers both questions in this way.
fn told(
    answer: fn(&[u8; 32], &[u8]) -> (bool, bool),
    asked: &Asked,
    packet: &[u8],
) -> Result<Window, Refusal> {
    let (delegation, signature) = answer(&asked.key, packet);
    Ok(trawlbeacon::check_response(&asked.request, packet, delegation, signature)?.window)
}

/// What a host is told that leaves both questions to the library.
fn by_itself(asked: &Asked, packet: &[u8]) -> Result<Window, Refusal> {
    Ok(trawlbeacon::check_signed(&asked.key, &asked.request, packet)?.window)
}

/// A host asks the server with this key.
struct Asked {
    key: [u8; 32],
    nonce: [u8; 32],
    request: Vec<u8>,
}

impl Asked {
    fn new(key: [u8; 32], nonce: [u8; 32]) -> Self {
        let mut request = vec![0; REQUEST_LENGTH];
        trawlbeacon::write_request(&key, &nonce, &mut request).expect("there is room");
        Asked { key, nonce, request }
    }
}

/// SREP with this time, and with `hidden` under a tag that nobody knows, behind all others.
fn srep(midp: u64, root: &Hash, hidden: &[u8]) -> Vec<u8> {
    let pairs: [(Tag, &[u8]); 6] = [
        (VER, &1u32.to_le_bytes()),
        (RADI, &3u32.to_le_bytes()),
        (MIDP, &midp.to_le_bytes()),
        (VERS, &1u32.to_le_bytes()),
        (ROOT, root),
        (ZZZZ, hidden),
    ];
    message::encode(&pairs)
}

/// The response of these parts to the request.
fn packet(
    asked: &Asked,
    sig: &[u8],
    path: &[Hash],
    indx: u32,
    srep: &[u8],
    cert: &[u8],
) -> Vec<u8> {
    let pairs: [(Tag, &[u8]); 7] = [
        (SIG, sig),
        (NONC, &asked.nonce),
        (TYPE, &1u32.to_le_bytes()),
        (PATH, &path.concat()),
        (SREP, srep),
        (CERT, cert),
        (INDX, &indx.to_le_bytes()),
    ];
    packet::encode(&message::encode(&pairs))
}

/// What the attacker saw: a server's key, and a response of it to somebody's request.
fn seen() -> Entry {
    appendix::entries().swap_remove(0)
}

/// Forged with the server's own certificate, so that the delegation verifies, and with an SREP that
/// the attacker signed. In that SREP, under the tag that nobody knows, his key stands where PUBK
/// usually does, and the certificate's signature where it usually does.
fn with_a_hidden_key(asked: &Asked, seen: &Entry, attacker: &Signer, midp: u64) -> Vec<u8> {
    let shaped = response::shaped(&seen.response).expect("it is a response");
    let root = hash::leaf(&asked.request);
    let start = SREP_AT.start + srep(midp, &root, &[]).len();
    let mut hidden = vec![0; PUBK_AT.end - start];
    hidden[CERT_SIG_AT.start - start..CERT_SIG_AT.end - start].copy_from_slice(&shaped.cert.sig);
    hidden[PUBK_AT.start - start..].copy_from_slice(&attacker.key());
    let srep = srep(midp, &root, &hidden);
    let sig = attacker.sign(&[text::RESPONSE, &srep].concat());
    packet(asked, &sig, &[], 0, &srep, shaped.outer.cert)
}

/// Forged without any signing. The siblings of the path are the SREP and the CERT of the response
/// that was seen, where both usually stand, and the signature is its own; what is read by its tags
/// is the attacker's, who delegates to himself.
fn with_a_hidden_response(asked: &Asked, seen: &Entry, midp: u64) -> Vec<u8> {
    let shaped = response::shaped(&seen.response).expect("it is a response");
    let mut bytes = [shaped.outer.srep, shaped.outer.cert].concat();
    bytes.resize((bytes.len() + 31) / 32 * 32, 0);
    let path: Vec<Hash> =
        bytes.chunks(32).map(|sibling| sibling.try_into().expect("it has 32 bytes")).collect();
    let root = tree::root_of(&hash::leaf(&asked.request), 0, &path);
    let dele: [(Tag, &[u8]); 3] =
        [(PUBK, &[0; 32]), (MINT, &[0; 8]), (MAXT, &u64::MAX.to_le_bytes())];
    let cert: [(Tag, &[u8]); 2] = [(SIG, &[0; 64]), (DELE, &message::encode(&dele))];
    let srep = srep(midp, &root, &[]);
    packet(asked, &shaped.outer.sig, &path, 0, &srep, &message::encode(&cert))
}

/// On an ordinary response such hosts are as good as any.
#[test]
fn all_hosts_agree_on_an_ordinary_response() {
    let Entry { key, request, response, .. } = seen();
    let nonce = trawlbeacon::read_request(&request).expect("it is a request").nonc;
    let asked = Asked::new(key, nonce);
    let windows = [by_the_parts, parts_at_fixed_places, all_at_fixed_places]
        .map(|answer| told(answer, &asked, &response).map(|window| window.midp));
    assert_eq!(windows, [Ok(1_773_685_571); 3]);
    assert_eq!(by_itself(&asked, &response).map(|window| window.midp), windows[0]);
}

#[test]
fn a_hidden_key_deceives_who_reads_keys_and_signatures_at_fixed_places() {
    let (seen, attacker) = (seen(), Signer::new(&[0x66; 32]));
    let asked = Asked::new(seen.key, [0x99; 32]);
    // Some weeks later than the server ever said, within the time that it delegated.
    let midp = 1_776_000_000;
    let forged = with_a_hidden_key(&asked, &seen, &attacker, midp);
    assert_eq!(parts_at_fixed_places(&seen.key, &forged), (true, true));
    let response::Dele { mint, maxt, .. } =
        response::shaped(&seen.response).expect("it is a response").dele;
    let window = Window { midp, radi: 3, low: midp - 3, high: midp + 3, mint, maxt };
    assert_eq!(told(parts_at_fixed_places, &asked, &forged), Ok(window));
    assert_eq!(by_the_parts(&seen.key, &forged), (true, false));
    assert_eq!(told(by_the_parts, &asked, &forged), Err(Refusal::Signature));
    assert_eq!(by_itself(&asked, &forged), Err(Refusal::Signature));
    println!("a forged time that passes with parts at fixed places: refused with 13 by the parts");
}

#[test]
fn a_hidden_response_deceives_who_reads_texts_at_fixed_places() {
    let seen = seen();
    let asked = Asked::new(seen.key, [0x99; 32]);
    for midp in [0, 1_000_000_000, 4_000_000_000, u64::MAX - 3] {
        let forged = with_a_hidden_response(&asked, &seen, midp);
        assert_eq!(all_at_fixed_places(&seen.key, &forged), (true, true));
        let (low, high) = (midp.saturating_sub(3), midp + 3);
        let window = Window { midp, radi: 3, low, high, mint: 0, maxt: u64::MAX };
        assert_eq!(told(all_at_fixed_places, &asked, &forged), Ok(window));
        assert_eq!(by_the_parts(&seen.key, &forged), (false, false));
        assert_eq!(told(by_the_parts, &asked, &forged), Err(Refusal::Delegation));
        assert_eq!(by_itself(&asked, &forged), Err(Refusal::Delegation));
    }
    println!("4 forged times that pass with texts at fixed places: refused with 12 by the parts");
}
