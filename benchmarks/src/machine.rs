//! On what a run was made.

use crate::openssl;
use crate::programs::{first_words, printed};
use crate::run::Run;
use crate::sodium;
use std::{env, fs, thread};

/// The name of the processor, as lscpu has it.
fn processor() -> Option<String> {
    let text = printed("lscpu", &[])?;
    let line = text.lines().find_map(|line| line.strip_prefix("Model name:"))?;
    Some(line.trim().to_string())
}

/// How many programs wanted a processor in the minute before.
fn load() -> String {
    let text = fs::read_to_string("/proc/loadavg").unwrap_or_default();
    text.split_whitespace().next().unwrap_or("unknown").to_string()
}

/// The version that is timed, since the page is read long after it was written.
fn version() -> String {
    let text = fs::read_to_string("VERSION").unwrap_or_default();
    text.split_whitespace().next().unwrap_or("unknown").to_string()
}

/// What stands beside ours: RustCrypto's sha2 and serde_json with base64, by the versions that the
/// script found, OpenSSL, and libsodium.
fn peers() -> String {
    let sha2 = match env::var("BENCH_SHA2") {
        Ok(version) if cfg!(feature = "peer") => format!("sha2 {version} in its portable form"),
        _ => "no sha2".into(),
    };
    let serde = match env::var("BENCH_SERDE") {
        Ok(versions) if cfg!(feature = "json") => versions,
        _ => "no serde_json".into(),
    };
    let openssl = match first_words("openssl", &["version"], 2) {
        _ if !openssl::LINKED => "no OpenSSL".into(),
        Some(version) => version,
        None => "OpenSSL".into(),
    };
    format!("{sha2}, {serde}, {openssl}, {}", sodium::version())
}

/// Says on what, and where it was a quick run, that it was.
pub fn part(run: &mut Run, quick: bool) {
    let processor = processor().unwrap_or_else(|| "an unknown processor".into());
    let cores = thread::available_parallelism().map_or(1, usize::from);
    let date = first_words("date", &["-u", "+%F"], 1).unwrap_or_default();
    let rustc = first_words("rustc", &["--version"], 2).unwrap_or_default();
    let (system, kind) = (env::consts::OS, env::consts::ARCH);
    let text = format!(
        "{} of `./bench` on {date}, of version {}: {processor}, {cores} cores, {kind}, {system}, \
         {rustc}, {}. The load of the minute before it was {}.",
        if quick { "A quick run, which counts for nothing," } else { "A run" },
        version(),
        peers(),
        load()
    );
    run.say("machine", &text);
}
