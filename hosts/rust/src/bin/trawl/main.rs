//! The command `trawl`: the front end of the proved program.
//!
//! `trawl [PILE [ANSWERS]]` runs the proved program, which stands in ../libexec/trawlbeacon/verdict
//! as seen from here, and passes on what it prints. All else, which `--help` lists, the functions of
//! the library do; here their inputs are read and their answers printed. Nothing here is proved.

mod actions;
mod ask;
mod cut;
mod draw;
mod evidence;
mod flags;
#[path = "../../../shared/frame.rs"]
mod frame;
mod help;
mod hints;
mod judge;
mod keys;
mod list;
mod lists;
mod look_up;
mod make;
mod names;
mod output;
mod plain;
// What is said of writing, and of one among many, is for the server.
#[allow(dead_code)]
#[path = "../../../shared/poll.rs"]
mod poll;
#[path = "../../../shared/signals.rs"]
mod signals;
#[path = "../../../shared/standard_output.rs"]
mod standard_output;
mod status;
#[path = "../../../shared/whole.rs"]
mod whole;
mod why;
mod why_list;

use actions::Action;
use flags::Flags;
use status::{Ended, Stop};
use std::process::ExitCode;

fn main() -> ExitCode {
    let ended = Flags::of(std::env::args_os().skip(1)).and_then(run);
    match ended {
        Ok(ended) => ExitCode::from(ended.status()),
        Err(stop) => {
            if !matches!(stop, Stop::Unread) {
                output::say(&stop.to_string());
            }
            ExitCode::from(stop.status())
        }
    }
}

fn run(flags: Flags) -> Result<Ended, Stop> {
    match flags.action {
        Action::Plain => plain::run(&flags),
        Action::Judge => judge::run(&flags),
        Action::Cut => cut::run(&flags),
        Action::Make => make::run(&flags),
        Action::LookUp => look_up::run(&flags),
        Action::List => list::run(&flags),
        Action::Ask => ask::run(&flags),
        Action::Draw => draw::run(&flags),
        Action::Help => output::print(help::HELP.as_bytes()),
        Action::Version => {
            output::print(format!("trawl {}\n", env!("CARGO_PKG_VERSION")).as_bytes())
        }
    }
}
