//! Measuring walks over servers that sign: our taker that verifies signatures by itself, compared at
//! every call with the independent walk and its own Ed25519, with our taker that is given answers,
//! and with the safe one. The code, the outcome, the state and the pile must be the same.
//!
//! A response is right; or it is forged in one of many ways, or signed by the next server of the
//! walk; or it breaks another rule, with signatures that are right or not. Steps are tried again
//! after a refusal. What is due is known from how a response was made.

mod support;

use independent::pile::RECORD;
use independent::walk::{Arrived, Heard};
use independent::write;
use std::collections::BTreeMap;
use support::guarded::Guarded;
use support::packets::ResponseFields;
use support::signing::{Forgery, Servers, FORGERIES};
use support::tally::Tally;
use support::walks::{self, Between, Story, Window, FAULTS};
use support::{counted, shortest, Xorshift};
use trawlbeacon::raw::{tb_took, tb_walk};
use trawlbeacon::{Answers, Pair, Walk};

const WALKS: usize = 300;
const MADE_UP: usize = 3_000;
const ALTERED: usize = 40;

/// Servers to walk over, one more than a walk may have.
const SERVERS: usize = 9;

/// The longest delay of the walks.
const LONGEST: u64 = 5;

const TAKES: &str = "take";

/// The rules of a call that come before those of its response, by their codes.
const ROOM: u32 = 19;
const CLOCK: u32 = 26;
const DELAY: u32 = 27;

/// What a call answered and left.
#[derive(Clone, Debug, PartialEq)]
struct Left {
    took: tb_took,
    state: tb_walk,
    pile: Vec<u8>,
}

/// Where no start went wrong, the key of the server that is asked.
fn key_asked(state: &tb_walk) -> [u8; 32] {
    let server = (state.step % state.count.clamp(1, 8)) as usize;
    state.keys[32 * server..32 * server + 32].try_into().expect("32 bytes")
}

/// Our taker that is given what our Ed25519 answers under that key.
fn given(state: &tb_walk, pile: &[u8], arrived: &Arrived) -> Left {
    let &Arrived { response, sent, received, rand } = arrived;
    let Answers { delegation, signature } = trawlbeacon::answers(&key_asked(state), response);
    let heard = Heard { response, delegation, signature, sent, received, rand };
    let (mut state, mut pile) = (*state, pile.to_vec());
    let took = walks::take(&mut state, &heard, &mut pile);
    Left { took, state, pile }
}

/// Whether the safe taker says and leaves the same.
fn safe_is(left: &Left, state: &tb_walk, pile: &[u8], arrived: &Arrived) -> bool {
    let mut walk = Walk::resume(*state, pile.to_vec());
    let said = walk.take_signed(arrived.response, arrived.sent, arrived.received, &arrived.rand);
    let same = walks::safe(said) == left.took;
    same && walk.state() == left.state && left.pile.starts_with(walk.pile())
}

/// A walk under way, with the places of its servers among all.
struct Pace {
    state: tb_walk,
    pile: Vec<u8>,
    places: Vec<usize>,
}

impl Pace {
    fn step(&self) -> usize {
        self.state.step as usize
    }

    /// The server that is asked, or so many further on, among all.
    fn server(&self, further: usize) -> usize {
        self.places[(self.step() + further) % self.places.len()]
    }
}

struct Comparison {
    random: Xorshift,
    servers: Servers,
    response: Guarded,
    pile: Guarded,
    tally: Tally,
    /// How often each forgery was what a response is to be refused for, by its code.
    forged: BTreeMap<(u32, String), usize>,
    /// How often a signature was, by the number of servers, the step and the code.
    places: BTreeMap<(usize, usize, u32), usize>,
    /// Walks that ended consistent, and in malfeasance.
    ends: [usize; 2],
}

impl Comparison {
    fn new(seed: u64) -> Self {
        let mut random = Xorshift::new(seed);
        Comparison {
            servers: Servers::new(&mut random, SERVERS),
            random,
            response: Guarded::new(2_100),
            pile: Guarded::new(19 * RECORD),
            tally: Tally::new(&[TAKES]),
            forged: BTreeMap::new(),
            places: BTreeMap::new(),
            ends: [0; 2],
        }
    }

    /// Our taker that verifies, with what it is given ending at a page that nobody may touch.
    fn ours(&mut self, state: &tb_walk, pile: &[u8], arrived: &Arrived) -> Left {
        let (mut between, response) = (Between::new(*state), &mut self.response);
        let (took, pile) = self.pile.lend(pile, |pile| {
            response.show(arrived.response, |response| {
                walks::take_signed(&mut between.state, &Arrived { response, ..*arrived }, pile)
            })
        });
        assert!(between.untouched(), "something was written beside the state");
        Left { took, state: between.state, pile }
    }

    /// The independent walk, with its own Ed25519.
    fn theirs(&self, state: &tb_walk, pile: &[u8], arrived: &Arrived) -> Left {
        let (mut walk, mut pile) = (walks::read_back(state), pile.to_vec());
        let said = walk.take_signed(&self.servers.ed25519, arrived, &mut pile);
        let (step, nonce, rand, last) = (walk.accepted, walk.nonce, walk.rand, walk.last);
        let state = tb_walk { step, nonce, rand, last, ..*state };
        Left { took: walks::took(said, arrived.response), state, pile }
    }

    /// Gives a response to all of them, and what is due where that is known.
    fn take(
        &mut self,
        state: &tb_walk,
        pile: &[u8],
        arrived: &Arrived,
        due: Option<tb_took>,
    ) -> Left {
        let ours = self.ours(state, pile, arrived);
        let theirs = self.theirs(state, pile, arrived);
        // The byte that a code names is for the two sides to say.
        let as_due = due.map_or(true, |due| tb_took { at: ours.took.at, ..due } == ours.took);
        let fed = given(state, pile, arrived);
        let safe = safe_is(&ours, state, pile, arrived);
        self.tally.count(TAKES, ours.took.code);
        if ours != theirs || ours != fed || !as_due || !safe {
            let (step, count) = (state.step, state.count);
            self.tally.differs(format!(
                "step {step} of {count} servers: {:?}, independent {:?}, given answers {:?}, due \
                 {due:?}, the safe one the same: {safe}; or the state or the pile",
                ours.took, theirs.took, fed.took
            ));
        }
        ours
    }

    /// A start over some of the servers.
    fn start(&mut self) -> Pace {
        let (count, first) = (3 + self.random.below(6), self.random.below(SERVERS));
        let places: Vec<usize> = (first..first + count).map(|place| place % SERVERS).collect();
        let keys: Vec<u8> = places.iter().flat_map(|place| self.servers.key(*place)).collect();
        let room = 2 * count * RECORD + self.random.pick(&[0, 0, 1, 77]);
        let (pile, nonce) = (self.random.bytes(room), self.random.array());
        let mut state = tb_walk::NONE;
        assert_eq!(state.start(&keys, &nonce, LONGEST, &pile), 0);
        Pace { state, pile, places }
    }

    /// When a request is sent that nothing is wrong with, and its response received.
    fn right_times(&mut self, state: &tb_walk) -> (u64, u64) {
        let sent = state.last + self.random.pick(&[0, 0, 1, 7]);
        (sent, sent + self.random.pick(&[0, 1, LONGEST]))
    }

    /// The same with a clock or a delay that is wrong by a second.
    fn times(&mut self, state: &tb_walk, clock: bool, slow: bool) -> (u64, u64) {
        let (sent, received) = self.right_times(state);
        match (clock, slow) {
            (true, true) if state.last > 0 => (state.last - 1, u64::MAX),
            (true, _) if sent > 0 => (sent, sent - 1),
            (true, _) => (1, 0),
            (false, true) => (sent, sent + LONGEST + 1),
            (false, false) => (sent, received),
        }
    }

    /// How the signatures are forged where they are to be wrong. The key is the walk's, so that the
    /// delegation's stays.
    fn forgeries(&mut self, wrong: &[u32]) -> [Option<Forgery>; 2] {
        let of_key = [Forgery::BitOfKey, Forgery::AnothersKey];
        let kept: Vec<Forgery> =
            FORGERIES.into_iter().filter(|forgery| !of_key.contains(forgery)).collect();
        let delegation = self.random.pick(&kept);
        let response = self.random.pick(&FORGERIES);
        [wrong.contains(&12).then_some(delegation), wrong.contains(&13).then_some(response)]
    }

    /// A response to what is asked, with these faults.
    fn response(&mut self, pace: &Pace, window: Window, wrong: &[u32]) -> (Vec<u8>, u32) {
        let (_, packet, code) = self.told(pace, window, wrong);
        (packet, code)
    }

    /// What it says, too.
    fn told(
        &mut self,
        pace: &Pace,
        window: Window,
        wrong: &[u32],
    ) -> (ResponseFields, Vec<u8>, u32) {
        let request = write::request(&key_asked(&pace.state), &pace.state.nonce);
        let mut fields = walks::answer(&mut self.random, &request, &pace.state.nonce, window);
        walks::wrong(&mut self.random, &mut fields, wrong);
        let mut forged = self.forgeries(wrong);
        // All of it right, but from the next server.
        let next = forged[0].is_some() && self.random.once_in(4);
        if next {
            forged[0] = None;
        }
        let server = pace.server(usize::from(next));
        self.servers.sign_by(&mut self.random, server, &mut fields, forged);
        let (packet, code) = walks::packed(&mut self.random, &fields, wrong);
        let how = match code {
            12 if next => "NextServer".to_string(),
            12 => format!("{:?}", forged[0].expect("it is forged")),
            13 => format!("{:?}", forged[1].expect("it is forged")),
            _ => return (fields, packet, code),
        };
        *self.forged.entry((code, how)).or_insert(0) += 1;
        (fields, packet, code)
    }

    /// A call that is refused, for one reason or several, of which the first counts.
    fn refused(&mut self, pace: &mut Pace, window: Window) {
        let all: Vec<u32> = [ROOM, CLOCK, DELAY].into_iter().chain(FAULTS).collect();
        let first = self.random.pick(&[0, 1, 2, 3, 4, 5, 6, 7, 7, 7, 8, 8, 8]);
        let mut wrong = all[first..].to_vec();
        wrong.retain(|rule| *rule == all[first] || self.random.once_in(3));
        let (sent, received) =
            self.times(&pace.state, wrong.contains(&CLOCK), wrong.contains(&DELAY));
        let faults: Vec<u32> = wrong.iter().copied().filter(|rule| FAULTS.contains(rule)).collect();
        let (response, code) = self.response(pace, window, &faults);
        let whole = 2 * pace.places.len() * RECORD;
        let room = match all[first] {
            ROOM => self.random.pick(&[whole - 1, whole / 2, 0]),
            _ => pace.pile.len(),
        };
        let before = [ROOM, CLOCK, DELAY].contains(&all[first]);
        let code = if before { all[first] } else { code };
        let rand = self.random.array();
        let arrived = Arrived { response: &response, sent, received, rand };
        let due = tb_took { code, ..walks::NOTHING };
        let left = self.take(&pace.state, &pace.pile[..room], &arrived, Some(due));
        let stays = left.state == pace.state && left.pile == pace.pile[..room];
        assert!(stays, "a refused call changed something");
        *self.places.entry((pace.places.len(), pace.step(), code)).or_insert(0) += 1;
    }

    /// A call that is accepted.
    fn accepted(&mut self, pace: &mut Pace, story: &Story) {
        let step = pace.step();
        let (fields, response, _) = self.told(pace, story.windows[step], &[]);
        let (sent, received) = self.right_times(&pace.state);
        let rand = self.random.array();
        let arrived = Arrived { response: &response, sent, received, rand };
        let due = walks::due(&story.windows, step, &fields);
        let left = self.take(&pace.state, &pace.pile, &arrived, Some(due));
        assert_eq!(left.state.step as usize, step + 1, "a right response was not accepted");
        (pace.state, pace.pile) = (left.state, left.pile);
    }

    /// Of the pile, with nothing beside it, the report check says what the walk said, and the
    /// cutter finds a run in it exactly where the servers contradict each other.
    fn reported(&mut self, pace: &Pace, story: &Story) {
        let pile = &pace.pile[..story.windows.len() * RECORD];
        let due = walks::contradiction(&story.windows);
        let named = trawlbeacon::check_signed_report(pile)
            .map(|Pair { first, second }| (first, second))
            .map_err(|no| no.refusal.code());
        let cut = trawlbeacon::cut_signed(pile).map(|_| ()).map_err(|why| why.code());
        if (named, cut) != (due.ok_or(18), due.map(|_| ()).ok_or(18)) {
            self.tally.differs(format!("the pile: {named:?}, {cut:?}, and {due:?} is due"));
        }
        self.ends[usize::from(due.is_some())] += 1;
    }

    fn walk(&mut self) {
        let mut pace = self.start();
        let story = walks::story(&mut self.random, 2 * pace.places.len());
        for window in &story.windows {
            while self.random.once_in(2) {
                self.refused(&mut pace, *window);
            }
            self.accepted(&mut pace, &story);
        }
        let nothing = Arrived { response: &[], sent: 1, received: 0, rand: [0; 32] };
        let due = tb_took { code: 28, ..walks::NOTHING };
        self.take(&pace.state, &pace.pile, &nothing, Some(due));
        self.reported(&pace, &story);
    }

    /// A call on a state that no start led to, over servers that sign.
    fn made_up(&mut self, chain: &[u8]) {
        let mut state = walks::made_up(&mut self.random);
        for (place, key) in state.keys.chunks_mut(32).enumerate() {
            key.copy_from_slice(&self.servers.key(place));
        }
        let pile = walks::any_pile(&mut self.random, &state, chain);
        let fault = self.random.pick(&FAULTS);
        let wrong = if self.random.once_in(2) { vec![fault] } else { vec![] };
        let places = (0..state.count.clamp(1, 8) as usize).collect();
        let pace = Pace { state, pile, places };
        let (response, _) = self.response(&pace, (1_000, 10), &wrong);
        let early = state.last.saturating_sub(1);
        let sent = self.random.pick(&[state.last, state.last, state.last, early]);
        let latest = sent.saturating_add(state.most);
        let received = self.random.pick(&[sent, latest, latest, latest.saturating_add(1)]);
        let arrived = Arrived { response: &response, sent, received, rand: self.random.array() };
        self.take(&state, &pace.pile, &arrived, None);
    }
}

#[test]
fn both_sides_walk_alike_by_signatures() {
    let mut seen = Comparison::new(0x5eed_1011);
    for _ in 0..WALKS {
        seen.walk();
    }
    println!(
        "{WALKS} walks over servers that sign, at every call compared with independent and with the \
         taker that is given answers; how often each code was given:"
    );
    println!("{}", seen.tally.table("code"));
    println!("walks that ended consistent, and in malfeasance: {:?}", seen.ends);
    println!("refused for a forged signature: {:?}", seen.forged);
    let of = |code| seen.places.keys().filter(|place| place.2 == code).count();
    println!("at {} of 66 steps for 12, and at {} for 13", of(12), of(13));
    seen.tally.no_difference();
    seen.tally.at_least(10, TAKES, (0..=13).chain([19, 26, 27, 28]));
    // Two steps for each of 3 to 8 servers.
    assert_eq!((of(12), of(13)), (66, 66), "a step was met without a forged signature");
    // 13 ways for the delegation and the next server, and 15 for the response.
    assert!(seen.forged.len() == 29 && seen.forged.values().all(|met| *met >= 5));
    assert!(seen.ends.iter().all(|walks| *walks >= 50), "an end was met too seldom");
    counted(seen.ends.iter().sum(), "measuring walks by their own signatures");
}

#[test]
fn made_up_states_do_no_harm_to_a_taker_that_verifies() {
    let mut seen = Comparison::new(0x5eed_1012);
    let chain = independent::making::pile_of(&[(1_000, 10); 16]).pile;
    for _ in 0..MADE_UP {
        seen.made_up(&chain);
    }
    println!("{MADE_UP} made-up states over servers that sign; how often each code was given:");
    println!("{}", seen.tally.table("code"));
    seen.tally.no_difference();
    seen.tally.at_least(20, TAKES, [0, 9, 10, 11, 12, 13, 19, 26, 27, 28]);
}

/// A byte of a key that is altered while a walk goes on is not noticed by it, since it reads no key
/// of its pile. The check by signatures names the record, with 12.
#[test]
fn an_altered_key_is_seen_by_the_signatures_alone() {
    let mut seen = Comparison::new(0x5eed_1014);
    for _ in 0..ALTERED {
        let mut pace = seen.start();
        let story = walks::story(&mut seen.random, 2 * pace.places.len());
        let last = story.windows.len() - 1;
        (0..last).for_each(|_| seen.accepted(&mut pace, &story));
        let place = seen.random.below(last);
        pace.pile[RECORD * place + seen.random.below(32)] ^= 1 << seen.random.below(8);
        // It must say what is due of the pile as it was.
        seen.accepted(&mut pace, &story);
        let why = trawlbeacon::check_signed_report(&pace.pile[..RECORD * (last + 1)]).unwrap_err();
        assert_eq!((why.refusal.code(), why.place), (12, Some(place)));
    }
    seen.tally.no_difference();
}

/// A refusal of another kind costs no verification.
#[test]
fn signatures_are_looked_at_last() {
    let mut seen = Comparison::new(0x5eed_1013);
    let pace = seen.start();
    let mut time = |wrong: &[u32], received: u64| {
        let (response, code) = seen.response(&pace, (1_000, 10), wrong);
        let arrived = Arrived { response: &response, sent: 0, received, rand: [0; 32] };
        let took = |state: &mut tb_walk, pile: &mut [u8]| walks::take_signed(state, &arrived, pile);
        let mut pile = pace.pile.clone();
        let first = took(&mut pace.state.clone(), &mut pile).code;
        assert_eq!(first, if received > LONGEST { DELAY } else { code });
        shortest(|| took(&mut pace.state.clone(), &mut pile)).as_secs_f64()
    };
    let right = time(&[], 0);
    for (wrong, received) in [(&[12][..], 6), (&[walks::SHAPE, 12], 0), (&[9, 13], 0), (&[11], 0)] {
        let part = time(wrong, received) / right;
        println!(
            "a response with {wrong:?} after {received} seconds: {part:.3} of a right one's time"
        );
        assert!(part < 0.1, "no signature is verified: {part}");
    }
    let part = time(&[13], 0) / right;
    assert!(part > 0.7, "two signatures are verified: {part}");
}
