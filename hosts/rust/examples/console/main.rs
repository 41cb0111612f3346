//! Asks one server for the time, as a console does that verifies signatures by itself, here with
//! OpenSSL's Ed25519. The example `time` leaves that to the library.
//!
//!     cargo run -p trawlbeacon --features openssl --example console [KEY NONCE RESPONSE]
//!
//! writes the request to the server with the long-term key KEY, with the nonce NONCE, takes the
//! file RESPONSE for what the server answered, and prints the window of the time, or the code of
//! the refusal and its words. KEY and NONCE are 64 digits of hex. Without arguments the server is
//! the first one of the report that draft 19 prints, and so are the nonce and the answer.
//!
//! A console would take 32 random bytes for the nonce, or `link` of the response before this one
//! and 32 random bytes, and would send the request over UDP.

#[path = "../time/asked.rs"]
mod asked;
mod ed25519;

use std::process::ExitCode;
use trawlbeacon::{Checked, PacketRefusal, LONGEST_TEXT};

/// Checks a response to a request, from the server with this long-term key. Keys, signatures and
/// texts come from the library alone.
fn check(key: &[u8; 32], request: &[u8], response: &[u8]) -> Result<Checked, PacketRefusal> {
    let parts = trawlbeacon::signed_parts(response)?;
    let mut text = [0; LONGEST_TEXT];
    let length = trawlbeacon::delegation_text(response, &mut text)?;
    let delegation = ed25519::verifies(key, &parts.delegation, &text[..length]);
    let length = trawlbeacon::response_text(response, &mut text)?;
    let signature = ed25519::verifies(&parts.pubk, &parts.signature, &text[..length]);
    trawlbeacon::check_response(request, response, delegation, signature)
}

fn main() -> ExitCode {
    asked::tell(check)
}
