//! Asks one server for the time, as a console does. The library verifies both signatures.
//!
//!     cargo run -p trawlbeacon --example time [KEY NONCE RESPONSE]
//!
//! writes the request to the server with the long-term key KEY, with the nonce NONCE, takes the
//! file RESPONSE for what the server answered, and prints the window of the time, or the code of
//! the refusal and its words. KEY and NONCE are 64 digits of hex. Without arguments the server is
//! the first one of the report that draft 19 prints, and so are the nonce and the answer.
//!
//! A console would take 32 random bytes for the nonce, or `link` of the response before this one
//! and 32 random bytes, and would send the request over UDP.

mod asked;

use std::process::ExitCode;

fn main() -> ExitCode {
    asked::tell(trawlbeacon::check_signed)
}
