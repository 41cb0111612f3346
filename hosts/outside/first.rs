//! A first program against the installed package: checks the first response of a report under the
//! key that stands beside it, and prints the window of the time.
//!
//!     cargo init --name first
//!     cargo add --path PREFIX/share/trawlbeacon/rust
//!     cp first.rs src/main.rs
//!     cargo run malfeasance-report.json

use std::error::Error;
use std::io::{stdout, Write};
use std::os::fd::AsFd;
use trawlbeacon::{check_signed, read_report, Window, MOST_PILE_LENGTH};

/// What was not written was not told. Before `main`, Rust opens /dev/null in the place of a closed
/// standard output, and every write succeeds; so it is looked at before that.
extern "C" fn look() {
    if stdout().as_fd().try_clone_to_owned().is_err() {
        eprintln!("first: standard output is closed");
        std::process::exit(1);
    }
}

// The system calls what stands in this section before anything of Rust's. (An attribute would do
// it, too, which each edition of Rust spells otherwise.)
#[cfg(target_pointer_width = "64")]
std::arch::global_asm!(
    ".pushsection .init_array, \"aw\"",
    ".balign 8",
    ".quad {}",
    ".popsection",
    sym look
);
#[cfg(target_pointer_width = "32")]
std::arch::global_asm!(
    ".pushsection .init_array, \"aw\"",
    ".balign 4",
    ".long {}",
    ".popsection",
    sym look
);

/// The packet of a record that stands at a place, with its length at another.
fn packet(record: &[u8], at: usize, length: usize) -> &[u8] {
    let length = u16::from_le_bytes([record[length], record[length + 1]]);
    &record[at..at + usize::from(length)]
}

fn window(text: &[u8]) -> Result<Window, Box<dyn Error>> {
    let mut pile = vec![0; MOST_PILE_LENGTH];
    read_report(text, &mut pile)?;
    let key = pile[..32].try_into()?;
    Ok(check_signed(&key, packet(&pile, 96, 64), packet(&pile, 2096, 68))?.window)
}

fn main() -> Result<(), Box<dyn Error>> {
    let name = std::env::args_os().nth(1).ok_or("usage: first REPORT")?;
    let Window { low, high, .. } = window(&std::fs::read(name)?)?;
    let mut out = stdout();
    writeln!(out, "the time is from {low} to {high}")?;
    Ok(out.flush()?)
}
