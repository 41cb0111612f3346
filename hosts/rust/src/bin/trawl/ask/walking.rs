//! The measuring walk (draft 19, section 8.2): each server in turn, and then each once more, so
//! that the packets which are left show who lied.

use super::asker::{Asker, Halt};
use super::moment::Moment;
use super::proof::{self, Contradiction};
use super::random;
use super::worker::Heard;
use crate::status::Stop;
use std::time::Duration;
use trawlbeacon::{Outcome, Walk, FEWEST_SERVERS, REQUEST_LENGTH};

/// How long a server is waited for within a walk before it is left out: three tries.
const PATIENCE: Duration = Duration::from_millis(4_750);

/// The same where little time is left: one try.
const LEAST_PATIENCE: Duration = Duration::from_secs(1);

/// What has become of the walk, and what the walks on the way to it showed.
#[derive(Default)]
pub struct Walked {
    /// The servers of the last one, in its order.
    pub servers: Vec<usize>,
    /// How many answers it has.
    pub answers: usize,
    pub ended: WalkEnded,
    /// Who had answered before, and then did not.
    pub left_out: Vec<usize>,
    pub contradictions: Vec<Contradiction>,
}

#[derive(Clone, Copy, Debug, Default, PartialEq, Eq)]
pub enum WalkEnded {
    /// Too few servers answer.
    #[default]
    TooFew,
    /// The time that it may take was over.
    OutOfTime,
    Consistent,
    Malfeasance,
}

/// How far a walk has come.
enum Came {
    ToItsEnd(WalkEnded),
    /// This server is silent.
    To(usize),
}

/// Walks, up to a moment, over the servers that have answered; where one of them is silent, once
/// more over the others.
pub fn walk(asker: &mut Asker, until: Moment) -> Result<Walked, Halt> {
    let mut walked = Walked::default();
    loop {
        let here =
            |server: &usize| asker.servers[*server].answered && !walked.left_out.contains(server);
        let here: Vec<usize> = (0..asker.servers.len()).filter(here).collect();
        let count = here.len();
        walked.servers = random::some(here, count)?;
        walked.answers = 0;
        if count < FEWEST_SERVERS {
            walked.ended = WalkEnded::TooFew;
            return Ok(walked);
        }
        match once(asker, &mut walked, until)? {
            Came::ToItsEnd(ended) => {
                walked.ended = ended;
                return Ok(walked);
            }
            Came::To(silent) => walked.left_out.push(silent),
        }
    }
}

/// One walk. One that is broken off shows what it shows.
fn once(asker: &mut Asker, walked: &mut Walked, until: Moment) -> Result<Came, Halt> {
    let keys: Vec<[u8; 32]> =
        walked.servers.iter().map(|server| asker.servers[*server].key).collect();
    // An answer that comes in time is not too late: what it took widens its window in the clock.
    let longest = until.left().as_secs() + 2;
    let mut walk = Walk::start(&keys, &random::bytes()?, longest).map_err(Stop::from)?;
    let came = steps(asker, walked, &mut walk, until)?;
    walked.contradictions.extend(proof::of(walk.pile(), asker)?);
    Ok(came)
}

fn steps(
    asker: &mut Asker,
    walked: &mut Walked,
    walk: &mut Walk,
    until: Moment,
) -> Result<Came, Halt> {
    loop {
        let asked = walk.ask().map_err(Stop::from)?;
        let server = walked.servers[asked.server];
        let Some(heard) = step(asker, server, asked.request, until)? else {
            let over = until.is_past();
            return Ok(if over { Came::ToItsEnd(WalkEnded::OutOfTime) } else { Came::To(server) });
        };
        let (sent, received) = (heard.sent.seconds(), heard.received.seconds());
        let taken = walk.take_signed(&heard.response, sent, received, &random::bytes()?);
        let Ok(taken) = taken else { return Ok(Came::To(server)) };
        walked.answers += 1;
        match taken.outcome {
            Outcome::GoesOn => (),
            Outcome::Consistent => return Ok(Came::ToItsEnd(WalkEnded::Consistent)),
            // An altered pile comes only of a walk that was resumed.
            Outcome::Malfeasance(_) | Outcome::PileAltered => {
                return Ok(Came::ToItsEnd(WalkEnded::Malfeasance))
            }
        }
    }
}

/// Asks one server, and takes meanwhile what others answer to what they were asked before.
fn step(
    asker: &mut Asker,
    server: usize,
    request: [u8; REQUEST_LENGTH],
    until: Moment,
) -> Result<Option<Heard>, Halt> {
    let patience = PATIENCE.min(LEAST_PATIENCE.max(until.left() / 2)).min(until.left());
    let end = Moment::now().after(patience);
    let ticket = asker.ask(server, request, end);
    while !end.is_past() {
        match asker.next(end)? {
            Some(done) if done.ticket == ticket => return Ok(done.heard),
            _ => (),
        }
    }
    Ok(None)
}
