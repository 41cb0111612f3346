//! Three servers, a console and a lie: the story of both programs, run for real.
//!
//!     cargo build --release -p trawlbeacon --bin trawl -p trawld
//!     cargo run --release -p trawlbeacon --example demo FOLDER [SEED]
//!
//! starts three `trawld` on this machine, one of them nine seconds ahead, behind a network that
//! loses, damages and delays packets. `trawl --ask` has the time all the same, finds that one lied,
//! and writes the report into FOLDER, which `trawl` then draws and judges. Then one of the honest
//! servers is stopped, and the time is had again, if not as closely. SEED, a whole number, says what
//! becomes of packets. The status is 0 where the story went as it should and could be written.

mod console;
mod programs;
mod relay;
mod running;
mod server;
#[path = "../../shared/standard_output.rs"]
mod standard_output;
mod story;
mod teller;

use std::path::PathBuf;
use std::process::ExitCode;
use teller::Teller;

/// The seed where none is given. It was sought: with it the story is short, a time is changed on its
/// way, and other packets are lost and delayed.
const SEED: u64 = 26_367;

/// The folder and the seed that the arguments name.
fn named() -> Option<(PathBuf, u64)> {
    let mut words = std::env::args().skip(1);
    let folder = PathBuf::from(words.next()?);
    let seed = words.next().map_or(Some(SEED), |word| word.parse().ok())?;
    words.next().is_none().then_some((folder, seed))
}

fn main() -> ExitCode {
    let Some((folder, seed)) = named() else {
        eprintln!("usage: demo FOLDER [SEED]");
        return ExitCode::from(2);
    };
    match story::tell(&folder, seed) {
        Ok(()) if Teller::was_heard() => ExitCode::SUCCESS,
        Ok(()) => {
            eprintln!("demo: not all of the story could be written to standard output");
            ExitCode::FAILURE
        }
        Err(why) => {
            eprintln!("demo: the story did not go as it should: {why}");
            ExitCode::FAILURE
        }
    }
}
