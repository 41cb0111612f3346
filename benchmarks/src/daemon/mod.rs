//! The server that people run, `trawld`, under a flood of requests, beside a bare UDP echo that
//! takes as many bytes and answers as many: what is left is the work itself. Both are processes of
//! their own, flooded by the same clients in turns, and the best turn of each counts. They are held
//! to each other twice: by how many they answer in a second, which also depends on what else the
//! machine does and on the clients, and by the processor's time that an answer took.

pub mod echo;
mod flood;
mod process;

use crate::limits;
use crate::run::Run;
use crate::table::{count, number, Table};
use flood::{at_rest, flood, Flooded};
use process::{Echo, Process, Trawld};
use std::time::Duration;

/// Numbers of sockets, with a thread each.
const SOCKETS: [usize; 3] = [1, 2, 4];

/// How often each is flooded, in the time that a run gives it, and how often again while a ratio is
/// above its limit.
const TURNS: usize = 6;
const AGAIN: usize = 18;

/// How often each is asked where nothing else is.
const AT_REST: usize = 2000;

/// Bytes of an answer in the largest batch, which is what the echo sends.
pub const ANSWER: usize = 736;

/// The best of some turns.
struct Best {
    rate: f64,
    /// Of the processor, for an answer, in microseconds.
    cost: f64,
}

impl Best {
    const NONE: Best = Best { rate: 0.0, cost: f64::MAX };

    fn take(&mut self, Flooded { answers, seconds }: Flooded, used: Duration) {
        self.rate = self.rate.max(answers as f64 / seconds);
        self.cost = self.cost.min(used.as_secs_f64() * 1e6 / answers.max(1) as f64);
    }
}

fn turn(best: &mut Best, process: &impl Process, requests: &[Vec<u8>], span: Duration) {
    let before = process.used();
    let flooded = flood(process.address(), requests, span);
    best.take(flooded, process.used().saturating_sub(before));
}

/// Both with so many sockets, and what came of the turns.
struct Pair {
    trawld: Trawld,
    echo: Echo,
    ours: Best,
    bare: Best,
}

impl Pair {
    fn start(sockets: usize) -> Option<Pair> {
        let (trawld, echo) = (Trawld::start(sockets)?, Echo::start(sockets)?);
        Some(Pair { trawld, echo, ours: Best::NONE, bare: Best::NONE })
    }

    fn turn(&mut self, requests: &[Vec<u8>], span: Duration) {
        turn(&mut self.ours, &self.trawld, requests, span);
        turn(&mut self.bare, &self.echo, requests, span);
    }

    /// Echoes a second by answers a second, and what an answer costs by what an echo does.
    fn ratios(&self) -> (f64, f64) {
        (self.bare.rate / self.ours.rate, self.ours.cost / self.bare.cost)
    }

    fn is_above(&self) -> bool {
        let (rate, cost) = self.ratios();
        rate > limits::highest("daemon_rate") || cost > limits::highest("daemon")
    }

    fn flood(&mut self, run: &Run) {
        let requests = self.trawld.requests();
        let span = run.span() / TURNS as u32;
        (0..TURNS).for_each(|_| self.turn(&requests, span));
        for _ in 0..AGAIN {
            if self.is_above() {
                self.turn(&requests, span);
            }
        }
    }

    fn row(&self, sockets: usize) -> Vec<String> {
        let (Pair { ours, bare, .. }, (rate, cost)) = (self, self.ratios());
        vec![
            count(sockets),
            number(ours.rate, 0),
            number(bare.rate, 0),
            number(1.0 / rate, 2),
            number(ours.cost, 2),
            number(bare.cost, 2),
            number(cost, 3),
        ]
    }
}

/// What one request takes at rest, there and back.
fn rest(Pair { trawld, echo, .. }: &Pair) -> String {
    let request = &trawld.requests()[0];
    let said = |(best, middle): (Duration, Duration)| {
        format!("{:.0} µs ({:.0} in the middle)", micros(best), micros(middle))
    };
    format!(
        "A request at rest is answered in {} and an echo comes in {}, at the best of {}.",
        said(at_rest(trawld.address(), request, AT_REST)),
        said(at_rest(echo.address(), request, AT_REST)),
        count(AT_REST)
    )
}

fn micros(span: Duration) -> f64 {
    span.as_secs_f64() * 1e6
}

pub fn part(run: &mut Run) {
    let head = ["Sockets", "answers a second", "echoes", "by echoes", "answer µs", "echo µs", "by"];
    let title = "trawld by the number of its sockets, beside a bare echo; µs are the processor's";
    let mut table = Table::new("daemon", title, &head);
    let (mut first, mut least, mut load) = (Duration::MAX, u64::MAX, 0);
    let mut at_rest = String::new();
    for sockets in SOCKETS {
        let Some(mut pair) = Pair::start(sockets) else {
            return run.say("daemon", "trawld was not measured: it is not built.");
        };
        (first, least) = (first.min(pair.trawld.first_answer), least.min(pair.trawld.memory()));
        if at_rest.is_empty() {
            at_rest = rest(&pair);
        }
        pair.flood(run);
        load = load.max(pair.trawld.memory());
        let (rate, cost) = pair.ratios();
        run.hold("daemon_rate", &format!("trawld with {sockets} sockets"), rate);
        run.hold("daemon", &format!("trawld with {sockets} sockets"), cost);
        table.row(pair.row(sockets));
    }
    run.put(table);
    let text = format!(
        "trawld answers first {:.1} ms after it is started. It holds {} KiB of memory at rest with \
         one socket, and {} KiB under this load with {}. {at_rest}",
        first.as_secs_f64() * 1e3,
        count(least as usize),
        count(load as usize),
        SOCKETS[SOCKETS.len() - 1]
    );
    run.say("daemon_memory", &text);
}
