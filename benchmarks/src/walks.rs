//! The step of a measuring walk over eight servers: a response is taken, by answers that are lent
//! and by its own signatures, and the last one has the whole pile judged.
//!
//! The state is put back before each call. The pile is not: each call writes the same record over
//! what the one before it left.

use crate::run::Run;
use crate::sides::{work, Side, Subject, Work};
use crate::table::{count, Columns, Table, MICROSECONDS};
use independent::ed25519::Ed25519;
use independent::making::Link;
use independent::pile::RECORD;
use independent::signing::Keys;
use independent::walk::{Arrived, Heard, Stand, Walk};
use independent::{packet, write};
use std::hint::black_box;
use trawlbeacon::raw::{tb_took, tb_walk};
use trawlbeacon::MOST_SERVERS;

/// Bytes of a pile with two records a server.
const PILE: usize = 2 * MOST_SERVERS * RECORD;

/// What every next nonce is blinded with.
const RAND: [u8; 32] = [9; 32];

/// The step that is held to what it cannot do without: as short a response as there is.
const HELD: &str = "a step, no siblings";

/// When every request was sent and every response received.
const WHEN: u64 = 100;

/// The servers.
struct Servers {
    ed25519: Ed25519,
    keys: Vec<Keys>,
}

impl Servers {
    fn new() -> Self {
        let ed25519 = Ed25519::new();
        let of = |place: usize| Keys::new(&ed25519, [place as u8; 32], [100 + place as u8; 32]);
        Servers { ed25519, keys: (0..MOST_SERVERS).map(of).collect() }
    }

    /// The response to the request that a walk asks, with so many siblings and, at the least, so
    /// many bytes.
    fn answer(&self, walk: &Walk, siblings: usize, response_size: usize) -> Vec<u8> {
        let keys = &self.keys[walk.accepted as usize % MOST_SERVERS];
        let nonce = Some(walk.nonce);
        let link = Link { nonce, siblings, response_size, ..Link::new(0, 1_000, 10) };
        let request = write::request(&keys.long_term.public, &walk.nonce);
        let mut pieces = link.response(&request, &[]);
        keys.sign(&self.ed25519, &mut pieces);
        pieces.packet()
    }
}

/// A walk before one of its steps, and the response that is taken there.
struct Step {
    name: &'static str,
    walk: Walk,
    pile: Vec<u8>,
    response: Vec<u8>,
}

fn heard(response: &[u8]) -> Heard<'_> {
    let (sent, received) = (WHEN, WHEN);
    Heard { response, delegation: true, signature: true, sent, received, rand: RAND }
}

fn arrived(response: &[u8]) -> Arrived<'_> {
    Arrived { response, sent: WHEN, received: WHEN, rand: RAND }
}

impl Step {
    /// A walk after so many responses of this kind.
    fn after(servers: &Servers, name: &'static str, steps: usize, kind: (usize, usize)) -> Self {
        let keys: Vec<u8> = servers.keys.iter().flat_map(|keys| keys.long_term.public).collect();
        let mut pile = vec![0; PILE];
        let mut walk = Walk::start(&keys, &[7; 32], 5, &pile).expect("nothing is wrong");
        for _ in 0..steps {
            let response = servers.answer(&walk, kind.0, kind.1);
            let taken = walk.take(&heard(&response), &mut pile).map(|taken| taken.stand);
            assert_eq!(taken, Ok(Stand::GoesOn));
        }
        let response = servers.answer(&walk, kind.0, kind.1);
        Step { name, walk, pile, response }
    }

    /// The state by ours.
    fn state(&self) -> tb_walk {
        let mut keys = [0; 256];
        keys.copy_from_slice(&self.walk.servers.concat());
        let Walk { accepted, nonce, rand, last, longest, .. } = self.walk;
        let (count, step, most) = (MOST_SERVERS as u64, accepted, longest);
        tb_walk { keys, count, step, nonce, rand, last, most }
    }

    fn ours(&self, take: fn(tb_walk, &[u8], &mut [u8]) -> tb_took) -> Work<'_> {
        let (state, mut pile) = (self.state(), self.pile.clone());
        assert_eq!(take(state, &self.response, &mut pile).code, 0);
        work(move || take(black_box(state), black_box(&self.response), &mut pile))
    }

    fn independents<'a, T>(
        &'a self,
        take: impl Fn(&mut Walk, &'a [u8], &mut [u8]) -> T + 'a,
    ) -> Work<'a> {
        let (mut walk, mut pile) = (self.walk.clone(), self.pile.clone());
        work(move || {
            let Walk { accepted, nonce, rand, last, .. } = *black_box(&self.walk);
            (walk.accepted, walk.nonce, walk.rand, walk.last) = (accepted, nonce, rand, last);
            take(&mut walk, black_box(&self.response), &mut pile)
        })
    }

    fn lent(&self) -> Subject<'_> {
        let theirs = self.independents(|walk, response, pile| walk.take(&heard(response), pile));
        self.subject("answers lent", [self.ours(take), theirs], "walks")
    }

    fn signed<'a>(&'a self, servers: &'a Servers) -> Subject<'a> {
        let theirs = self.independents(|walk, response, pile| {
            walk.take_signed(&servers.ed25519, &arrived(response), pile)
        });
        let mut subject = self.subject("verified", [self.ours(take_signed), theirs], "signed");
        subject.works.push((Side::Steps, self.checked()));
        match self.name {
            HELD => subject.held(Side::Steps, "walk_step"),
            _ => subject,
        }
    }

    /// What a verified step cannot do without: the response check, and two verifications.
    fn checked(&self) -> Work<'_> {
        let key = self.walk.servers[self.walk.accepted as usize % MOST_SERVERS];
        let request = write::request(&key, &self.walk.nonce);
        work(move || {
            let response = black_box(&self.response);
            let said = trawlbeacon::answers(&key, response);
            (said, trawlbeacon::check_response(&request, response, true, true))
        })
    }

    fn subject<'a>(&self, how: &str, works: [Work<'a>; 2], limit: &'static str) -> Subject<'a> {
        let length = self.response.len();
        let name = format!("{}, {} bytes, {how}", self.name, count(length));
        Subject::of_two(name, length, works).held(Side::Independent, limit)
    }
}

/// One call of ours, with two yeses.
fn take(mut state: tb_walk, response: &[u8], pile: &mut [u8]) -> tb_took {
    state.take([1, 1], [WHEN, WHEN], &RAND, response, pile)
}

/// The same with no answers.
fn take_signed(mut state: tb_walk, response: &[u8], pile: &mut [u8]) -> tb_took {
    state.take_signed([WHEN, WHEN], &RAND, response, pile)
}

const COLUMNS: Columns =
    Columns { sides: &[Side::Ours, Side::Independent, Side::Steps], ..MICROSECONDS };

/// A step with a response as short as it can be and with one as full, and the last with full ones.
pub fn part(run: &mut Run) {
    let servers = Servers::new();
    let (last, full) = (2 * MOST_SERVERS - 1, (32, packet::MOST));
    let steps = [
        Step::after(&servers, HELD, 3, (0, 0)),
        Step::after(&servers, "a step, 32 siblings", 3, full),
        Step::after(&servers, "the last, 32 siblings", last, full),
    ];
    let subjects = steps.iter().flat_map(|step| [step.lent(), step.signed(&servers)]).collect();
    let title = "a response that is taken by a walk over eight servers";
    run.table(Table::new("walks", title, &["Step of a walk"]), &COLUMNS, subjects);
}
