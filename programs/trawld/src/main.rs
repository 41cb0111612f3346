//! The command `trawld`: a Roughtime server on the proved library.
//!
//! Every byte of an answer is the library's, but for those that `--grease` spoils, and so is every
//! judgement of a request. Here stands what is around it: sockets, threads, clocks, files and words.
//! Nothing here is proved.

mod answering;
mod clock;
mod connection;
mod counts;
mod date;
mod delegation;
mod draw;
mod ending;
mod fields;
mod figures;
#[path = "../../../hosts/rust/shared/frame.rs"]
mod frame;
mod grease;
mod hex;
mod kernel_clock;
mod keys;
mod lines;
mod listening;
mod long_term;
mod pairs;
#[path = "../../../hosts/rust/shared/poll.rs"]
mod poll;
mod post;
mod secret;
mod secret_file;
mod serve;
mod server_list;
mod serving;
#[path = "../../../hosts/rust/shared/signals.rs"]
mod signals;
mod sockets;
mod spoilt;
#[path = "../../../hosts/rust/shared/standard_output.rs"]
mod standard_output;
mod stop;
mod tcp;
mod teller;
mod threads;
mod timekeeper;
mod udp;
mod watch;
#[path = "../../../hosts/rust/shared/whole.rs"]
mod whole;
mod words;

use std::io::ErrorKind;
use std::process::ExitCode;
use stop::{failed, Stop};
use words::Words;

const HELP: &str = include_str!("help.txt");

fn main() -> ExitCode {
    match Words::of(std::env::args_os().skip(1)).and_then(|words| run(&words)) {
        Ok(()) => ExitCode::SUCCESS,
        Err(stop) => {
            // Where standard error is closed, the status says it.
            let _ = std::io::Write::write_all(
                &mut std::io::stderr(),
                format!("trawld: {stop}\n").as_bytes(),
            );
            ExitCode::from(stop.status())
        }
    }
}

fn run(words: &Words) -> Result<(), Stop> {
    let text = match words.action()? {
        "--help" => HELP.to_string(),
        "--version" => format!("trawld {}\n", env!("CARGO_PKG_VERSION")),
        "--make-key" => keys::make_key(words)?,
        "--delegate" => keys::delegate(words)?,
        "--show" => keys::show(words)?,
        "--server-list" => server_list::entry(words)?,
        _ => return serve::serve(&serving::served(words)?),
    };
    match standard_output::print(text.as_bytes()) {
        Err(error) if error.kind() != ErrorKind::BrokenPipe => {
            failed(format!("standard output could not be written: {error}"))
        }
        _ => Ok(()),
    }
}
