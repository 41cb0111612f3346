//! OpenSSL's Ed25519, asked as a host asks it, with the key's bytes each time; by itself, and for
//! the answers that the independent checker is lent. What signs has its key made once. Where it is
//! not linked there are no answers and no signatures.

use independent::pile::{self, Record};

#[cfg(feature = "openssl")]
#[path = "../../hosts/rust/examples/console/ed25519.rs"]
#[allow(dead_code)]
mod ed25519;

#[cfg(feature = "openssl")]
#[path = "../../hosts/rust/tests/openssl/signer.rs"]
#[allow(dead_code)]
mod signer;

#[cfg(feature = "openssl")]
pub use signer::Signer;

/// Whether there is one.
pub const LINKED: bool = cfg!(feature = "openssl");

#[cfg(feature = "openssl")]
pub fn verifies(key: &[u8; 32], signature: &[u8; 64], text: &[u8]) -> bool {
    ed25519::verifies(key, signature, text)
}

#[cfg(not(feature = "openssl"))]
pub fn verifies(_: &[u8; 32], _: &[u8; 64], _: &[u8]) -> bool {
    unreachable!("OpenSSL is not linked")
}

/// Who would sign.
#[cfg(not(feature = "openssl"))]
pub struct Signer;

#[cfg(not(feature = "openssl"))]
impl Signer {
    pub fn new(_: &[u8; 32]) -> Self {
        unreachable!("OpenSSL is not linked")
    }

    pub fn key(&self) -> [u8; 32] {
        unreachable!("OpenSSL is not linked")
    }

    pub fn sign(&self, _: &[u8]) -> [u8; 64] {
        unreachable!("OpenSSL is not linked")
    }
}

/// The two answers about a response, which must be of the right shape.
pub fn answers(key: &[u8; 32], packet: &[u8]) -> [bool; 2] {
    let response = independent::response::shaped(packet).expect("it is of the right shape");
    let delegation = [independent::text::DELEGATION, response.dele.bytes].concat();
    let signature = [independent::text::RESPONSE, response.srep.bytes].concat();
    [
        verifies(key, &response.cert.sig, &delegation),
        verifies(&response.dele.pubk, &response.outer.sig, &signature),
    ]
}

/// Those about every record of a pile, all of which must be of the right shape.
pub fn all_answers(bytes: &[u8]) -> Vec<u8> {
    let of = |record: &Record| {
        let (_, response) = record.packets().expect("it is laid out as a record is");
        answers(record.key(), response).map(u8::from)
    };
    pile::records(bytes).expect("it is a pile").iter().flat_map(of).collect()
}
