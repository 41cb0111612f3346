//! A server at work: a thread for each socket, and this one, which takes signals and tells.

use crate::clock::Source;
use crate::delegation::Delegation;
use crate::grease::Greasing;
use crate::lines::Lines;
use crate::listening::{listen, Listening};
use crate::long_term;
use crate::signals::{Signal, Signals};
use crate::stop::{failed, Stop};
use crate::tcp::Limits;
use crate::teller::Teller;
use crate::threads::Threads;
use crate::timekeeper::Policy;
use std::net::SocketAddr;
use std::path::PathBuf;
use std::time::Duration;

/// All that a server is told at its start.
#[derive(Debug)]
pub struct Served {
    pub delegation: PathBuf,
    pub listen: Vec<SocketAddr>,
    /// Whether an address at which nothing can be listened is passed over.
    pub any: bool,
    pub sockets: usize,
    pub tcp: Option<Limits>,
    pub policy: Policy,
    pub grease: Option<Greasing>,
    pub metrics: Option<PathBuf>,
    /// How often a line is said.
    pub every: Duration,
}

/// The clock and the delegation are looked at so often.
const TICK: Duration = Duration::from_millis(500);

fn listening(served: &Served, lines: &Lines) -> Result<Vec<Listening>, Stop> {
    let mut all = Vec::new();
    for address in &served.listen {
        match listen(*address, served.sockets, served.tcp.is_some()) {
            Ok(listening) => all.push(listening),
            Err(why) if served.any => lines.say(&why.to_string()),
            Err(why) => return Err(why),
        }
    }
    match all.is_empty() {
        true => failed("nothing can be listened at; --listen names an address and a port"),
        false => Ok(all),
    }
}

/// Says who answers and where, and has it answered there.
fn started(served: &Served, lines: &Lines, delegation: &Delegation) -> Result<Threads, Stop> {
    let (all, mut threads) = (listening(served, lines)?, Threads::new()?);
    lines.say(long_term::said(&delegation.long_term).trim_end());
    if served.policy.source != Source::System {
        lines.say("THE CLOCK IS TURNED by a file, for a test");
    }
    for at in all {
        let tcp = if at.tcp.is_some() { " and tcp" } else { "" };
        lines.say(&format!("listening at udp{tcp} {}", at.address));
        threads.start(at, served, delegation)?;
    }
    Ok(threads)
}

pub fn serve(served: &Served) -> Result<(), Stop> {
    // Before any thread is started, so that none gets a signal.
    let signals = Signals::hold();
    let delegation = Delegation::read(&served.delegation)?;
    let lines = Lines::new();
    let mut threads = started(served, &lines, &delegation)?;
    let mut teller = Teller::new(served, &lines, &delegation);
    drop(delegation);
    let ended = loop {
        teller.tick(&threads);
        match signals.wait(TICK) {
            Some(Signal::End) => break Ok(()),
            Some(Signal::Reload) => teller.reload(&threads),
            None => {}
        }
        if threads.ended() {
            break failed("a thread ended by itself, which it never should; start trawld again");
        }
    };
    threads.end();
    teller.end(&threads);
    lines.end();
    ended
}
