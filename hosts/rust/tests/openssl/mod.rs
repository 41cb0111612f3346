//! What the tests of signatures share: a signer, and what a host does to answer both questions.

// Each test file is a crate of its own that takes this module in, and none of them needs all of it.
#![allow(dead_code, unused_imports)]

#[path = "../../examples/console/ed25519.rs"]
pub mod ed25519;
mod signer;

pub use ed25519::verifies;
pub use signer::Signer;

use trawlbeacon::LONGEST_TEXT;

/// A text that the library writes.
pub fn text(
    write: fn(&[u8], &mut [u8]) -> Result<usize, trawlbeacon::PacketRefusal>,
    response: &[u8],
) -> Vec<u8> {
    let mut out = vec![0; LONGEST_TEXT];
    let length = write(response, &mut out).expect("it is a response");
    out.truncate(length);
    out
}

/// Both answers about a response of the server with this long-term key, by what the library hands
/// out.
pub fn by_the_parts(key: &[u8; 32], response: &[u8]) -> (bool, bool) {
    let parts = trawlbeacon::signed_parts(response).expect("it is a response");
    let delegation = text(trawlbeacon::delegation_text, response);
    let signed = text(trawlbeacon::response_text, response);
    (
        verifies(key, &parts.delegation, &delegation),
        verifies(&parts.pubk, &parts.signature, &signed),
    )
}
