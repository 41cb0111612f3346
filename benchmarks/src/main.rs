//! Times the proved library against the independent implementation and, built through
//! benchmarks/peer, against the same over RustCrypto's sha2 and against serde_json with base64;
//! where OpenSSL or libsodium is linked, against its Ed25519.
//!
//! All sides run in this one process, on the same bytes, in turns, and the best of many turns
//! counts, by the processor's time that it took: whatever else the machine does then hits all of
//! them alike, and the best turn is the one that it hit least.
//!
//! A ratio is our time by the other's: below 1 ours is the faster. The program fails where a ratio
//! is above its limit.

mod batches;
mod by_serde;
mod clock;
mod counted;
mod daemon;
mod doubling;
mod hashes;
mod inputs;
mod limits;
mod lists;
mod machine;
mod measured;
mod memory;
mod openssl;
mod operations;
mod page;
mod parts;
mod picture;
mod piles;
#[allow(dead_code)] // nobody waits here until something can be written
#[path = "../../hosts/rust/shared/poll.rs"]
mod poll;
mod programs;
mod refused;
mod run;
mod servers;
mod sides;
mod signed;
mod signing;
#[allow(dead_code)]
#[path = "../../programs/trawld/src/sockets.rs"]
mod sockets;
mod sodium;
#[path = "../../hosts/rust/shared/standard_output.rs"]
mod standard_output;
mod table;
mod texts;
mod timing;
mod trees;
mod verifying;
mod walks;
mod whence;
#[path = "../../hosts/rust/shared/whole.rs"]
mod whole;
mod windows;
mod worst;

use parts::Part;
use run::Run;
use std::env;
use std::process::ExitCode;
use timing::Pace;

/// What the command line asks for. The script ./bench says what there is.
struct Options {
    write: bool,
    quick: bool,
    parts: Vec<&'static Part>,
}

impl Options {
    fn read(words: Vec<String>) -> Result<Self, String> {
        let (flags, names): (Vec<String>, Vec<String>) =
            words.into_iter().partition(|word| word.starts_with('-'));
        let has = |flag: &str| flags.iter().any(|word| word == flag);
        if let Some(flag) = flags.iter().find(|flag| !["--write", "--quick"].contains(&&flag[..])) {
            return Err(format!("there is no {flag}; see ./bench --help"));
        }
        if has("--write") && !names.is_empty() {
            return Err("--write takes the whole of one run, and no names".into());
        }
        Ok(Options { write: has("--write"), quick: has("--quick"), parts: parts::named(&names)? })
    }
}

/// Times the parts that are wanted.
fn time(options: &Options) -> Run {
    let mut run = Run::new(if options.quick { Pace::QUICK } else { Pace::FULL });
    machine::part(&mut run, options.quick);
    for (place, part) in options.parts.iter().enumerate() {
        eprintln!("bench: {} of {}: {}: {}", place + 1, options.parts.len(), part.name, part.what);
        (part.run)(&mut run);
    }
    run.limits();
    run
}

/// What is above its limit, and what could not be written.
fn end(options: &Options, run: &Run) -> Result<(), Vec<String>> {
    let above = run.above();
    if options.quick {
        println!(
            "a quick run: {} ratios are above their limits, which count for nothing",
            above.len()
        );
    } else if !above.is_empty() {
        return Err(above);
    } else {
        println!("no ratio is above its limit");
    }
    if options.write {
        page::write(run).map_err(|error| vec![error])?;
    }
    Ok(())
}

fn main() -> ExitCode {
    let words: Vec<String> = env::args().skip(1).collect();
    if let [once, name] = &words[..] {
        if once == whence::ONCE {
            whence::once(name);
            return ExitCode::SUCCESS;
        }
        if once == daemon::echo::ECHO {
            daemon::echo::echo(name);
            return ExitCode::SUCCESS;
        }
    }
    let options = match Options::read(words) {
        Ok(options) => options,
        Err(error) => {
            eprintln!("bench: {error}");
            return ExitCode::from(2);
        }
    };
    // Tables that nobody can read are not worth the time.
    if let Err(error) = standard_output::print(b"") {
        eprintln!("bench: standard output: {error}");
        return ExitCode::FAILURE;
    }
    match end(&options, &time(&options)) {
        Ok(()) => ExitCode::SUCCESS,
        Err(lines) => {
            lines.iter().for_each(|line| println!("FAILED: {line}"));
            ExitCode::FAILURE
        }
    }
}
