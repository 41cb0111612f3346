//! Answers a batch of 900 requests, as a time server does.
//!
//!     cargo run --release -p trawlbeacon --example server [TIME]
//!
//! delegates a key, takes 1,000 packets into one batch, answers the 900 of them that are requests to
//! it, in one call and with one signature, and then does what 900 clients do: each verifies both
//! signatures and checks the response against its own request. TIME is in seconds since 1970;
//! without it the clock of the machine is asked.
//!
//! A server would keep its long-term key on another machine, which only ever signs DELE, would take
//! random seeds for both keys, and would take requests and send responses over UDP.

#[path = "../serving/mod.rs"]
mod serving;
#[path = "../time/told.rs"]
mod told;

use serving::{delegated, RADI};
use std::process::ExitCode;
use std::time::{SystemTime, UNIX_EPOCH};
use told::told;
use trawlbeacon::{PacketRefusal, SigningKey, REQUEST_LENGTH};

/// How many requests one batch has, and how many others come with them.
const BATCH: usize = 900;
const OTHERS: usize = 100;

/// How long a delegated key may sign, in seconds.
const DAY: u64 = 86_400;

/// What arrives at the server with this long-term key: requests to it, and every tenth to another.
fn packets(key: &[u8; 32]) -> Result<Vec<Vec<u8>>, PacketRefusal> {
    let another = [3; 32];
    let request = |client: usize| {
        let key = if client % 10 == 0 { &another } else { key };
        let nonce = trawlbeacon::leaf(&client.to_le_bytes());
        let mut request = vec![0; REQUEST_LENGTH];
        trawlbeacon::write_request(key, &nonce, &mut request)?;
        Ok(request)
    };
    (0..BATCH + OTHERS).map(request).collect()
}

/// Serves the requests to it at this second, with one signature, and says what their clients learnt.
fn serve(now: u64) -> Result<String, PacketRefusal> {
    let long_term = SigningKey::new(&[1; 32]);
    let (key, times) = (long_term.public_key(), (now, now.saturating_add(DAY)));
    let mut batch = delegated(&long_term, SigningKey::new(&[2; 32]), times)?;
    let packets = packets(&key)?;
    for packet in &packets {
        batch.push(packet)?;
    }
    // What names another server is not for this one to answer (draft 19, section 5.2).
    let count = batch.answer(now, RADI)?;
    let mut learnt = Vec::new();
    for (place, response) in batch.answers() {
        let checked = trawlbeacon::check_signed(&key, &packets[place], response)?;
        learnt.push((response.len(), checked.window));
    }
    learnt.dedup();
    let [(bytes, window)] = learnt[..] else { panic!("one SREP has one window") };
    let (low, high) = (window.low, window.high);
    Ok(format!("{count} responses of {bytes} bytes are valid: the time is from {low} to {high}"))
}

/// The second that the argument names, or that it is now.
fn second() -> Option<u64> {
    let mut words = std::env::args().skip(1);
    match (words.next(), words.next()) {
        (None, _) => Some(SystemTime::now().duration_since(UNIX_EPOCH).ok()?.as_secs()),
        (Some(word), None) => word.parse().ok(),
        _ => None,
    }
}

fn main() -> ExitCode {
    let Some(now) = second() else {
        eprintln!("usage: server [TIME]");
        return ExitCode::from(2);
    };
    match serve(now) {
        Ok(said) => told(&said, ExitCode::SUCCESS),
        Err(refusal) => {
            let line = format!("refused with code {}: {refusal}", refusal.code());
            told(&line, ExitCode::FAILURE)
        }
    }
}
