//! What both programs that ask a server for the time share: which server, nonce and answer their
//! arguments name, and what is printed.

#[path = "told.rs"]
mod told;

use independent::appendix;
use std::process::ExitCode;
use std::{env, fs};
use told::told;
use trawlbeacon::{Checked, PacketRefusal, Window, REQUEST_LENGTH};

/// What is said of the response to a request, from the server with this long-term key.
pub type Check = fn(&[u8; 32], &[u8], &[u8]) -> Result<Checked, PacketRefusal>;

/// Reads 32 bytes from 64 digits of hex.
fn unhex(text: &str) -> Option<[u8; 32]> {
    if text.len() != 64 || !text.bytes().all(|digit| digit.is_ascii_hexdigit()) {
        return None;
    }
    let byte = |at: usize| u8::from_str_radix(&text[2 * at..2 * at + 2], 16).ok();
    (0..32).map(byte).collect::<Option<Vec<u8>>>()?.try_into().ok()
}

/// A server's key, a nonce and a response.
type Asked = ([u8; 32], [u8; 32], Vec<u8>);

/// The draft's own.
fn drafts() -> Option<Asked> {
    let appendix::Entry { key, response, .. } = appendix::entries().into_iter().next()?;
    let nonce = trawlbeacon::read_response(&response).ok()?.nonc;
    Some((key, nonce, response))
}

/// What the arguments KEY NONCE RESPONSE name, or the draft's where there are none.
fn asked() -> Result<Asked, String> {
    let mut words = env::args();
    let program = words.next().unwrap_or_default();
    let usage = || format!("usage: {program} [KEY NONCE RESPONSE]");
    match &words.collect::<Vec<String>>()[..] {
        [] => drafts().ok_or("the draft's response cannot be read".into()),
        [key, nonce, name] => {
            let (key, nonce) = unhex(key).zip(unhex(nonce)).ok_or_else(usage)?;
            let response = fs::read(name).map_err(|error| format!("{name}: {error}"))?;
            Ok((key, nonce, response))
        }
        _ => Err(usage()),
    }
}

/// Writes the request, checks the response and prints the window, or the refusal.
pub fn tell(check: Check) -> ExitCode {
    let (key, nonce, response) = match asked() {
        Ok(asked) => asked,
        Err(why) => {
            eprintln!("{why}");
            return ExitCode::from(2);
        }
    };
    let mut request = [0; REQUEST_LENGTH];
    let checked = trawlbeacon::write_request(&key, &nonce, &mut request)
        .map_err(PacketRefusal::from)
        .and_then(|_| check(&key, &request, &response));
    match checked {
        Ok(Checked { window: Window { low, high, .. }, .. }) => {
            told(&format!("the time is from {low} to {high}"), ExitCode::SUCCESS)
        }
        Err(refusal) => {
            let line = format!("refused with code {}: {refusal}", refusal.code());
            told(&line, ExitCode::FAILURE)
        }
    }
}
