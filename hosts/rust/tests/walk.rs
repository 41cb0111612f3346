//! Measuring walks: the proved library and the independent implementation are led through the same
//! ones, with servers that lie, responses that are refused and steps that are tried again. After
//! every call both must have answered the same, and have the same state, request and pile. What is
//! due is known from how a walk was made.

mod support;

use independent::hash::{self, Hash};
use independent::pile::RECORD;
use independent::refusal::Refusal;
use independent::walk::{self, Heard};
use independent::{report, write};
use std::collections::BTreeMap;
use support::guarded::Guarded;
use support::packets::number;
use support::tally::Tally;
use support::walks::{self, Between, Reply, Story, Window, FAULTS};
use support::{counted, Xorshift};
use trawlbeacon::raw::{self, tb_took, tb_walk};
use trawlbeacon::{Outcome, Pair, Walk};

const WALKS: usize = 50_000;
const MADE_UP: usize = 40_000;
const ALTERED: usize = 3_000;
const SAFE: usize = 2_000;

const STARTS: &str = "start";
const ASKS: &str = "ask";
const TAKES: &str = "take";
const OUTCOMES: &str = "outcome";

/// The rules of a call that come before those of its response, by their codes.
const ROOM: u32 = 19;
const CLOCK: u32 = 26;
const DELAY: u32 = 27;

/// A walk on both sides.
struct Pace {
    state: tb_walk,
    pile: Vec<u8>,
    theirs: walk::Walk,
    their_pile: Vec<u8>,
}

/// How often a clock or a delay stood just at its limit or just beyond it, by what it was.
type Borders = BTreeMap<&'static str, usize>;

struct Comparison {
    random: Xorshift,
    tally: Tally,
    borders: Borders,
    /// Walks by their number of servers: those that ended consistent, and in malfeasance.
    ends: BTreeMap<usize, [usize; 2]>,
    /// Lies by the number of servers and the step.
    lies: BTreeMap<(usize, usize), usize>,
}

impl Comparison {
    fn new(seed: u64) -> Self {
        Comparison {
            random: Xorshift::new(seed),
            tally: Tally::new(&[STARTS, ASKS, TAKES]),
            borders: Borders::new(),
            ends: BTreeMap::new(),
            lies: BTreeMap::new(),
        }
    }

    fn border(&mut self, name: &'static str, met: bool) {
        *self.borders.entry(name).or_insert(0) += usize::from(met);
    }

    /// Counts an answer, and keeps it where something about it differs.
    fn hold(&mut self, column: &str, code: u32, same: bool, how: impl FnOnce() -> String) {
        self.tally.count(column, code);
        if !same {
            self.tally.differs(format!("{column}: {}", how()));
        }
    }

    /// Keys that are all different.
    fn keys(&mut self, count: usize) -> Vec<u8> {
        let mut keys = self.random.bytes(32 * count);
        // So close that a comparison of some bytes alone would take two for one.
        if count > 1 && self.random.once_in(4) {
            let (from, to) = (self.random.below(count - 1), count - 1);
            keys.copy_within(32 * from..32 * from + 32, 32 * to);
            keys[32 * to + self.random.below(32)] ^= 1 << self.random.below(8);
        }
        keys
    }

    /// A start, right or wrong, with the code that is due.
    fn start(&mut self, keys: &[u8], room: usize, due: u32) -> Option<Pace> {
        let nonce = self.random.array();
        let any = number(&mut self.random);
        let longest = self.random.pick(&[0, 1, 5, 60, 1_000, any, u64::MAX]);
        let pile = self.random.bytes(room);
        let before = walks::unstarted(&mut self.random);
        let mut state = before;
        let code = state.start(keys, &nonce, longest, &pile);
        let theirs = walk::Walk::start(keys, &nonce, longest, &pile);
        let their_code = theirs.as_ref().map_or_else(|refusal| refusal.code(), |_| 0);
        let laid = theirs.as_ref().map_or(before, walks::laid);
        let same = (code, their_code) == (due, due) && state == laid;
        let (bytes, count) = (keys.len(), keys.len() / 32);
        self.hold(STARTS, code, same, || {
            format!("{bytes} bytes of {count} keys: {code}, independent {their_code}, due {due}")
        });
        let their_pile = pile.clone();
        theirs.ok().filter(|_| code == 0).map(|theirs| Pace { state, pile, theirs, their_pile })
    }

    /// Starts that are refused, for each cause of 31, and for 19.
    fn bad_start(&mut self) {
        let (fits, few, many) =
            (3 + self.random.below(6), self.random.below(3), 9 + self.random.below(4));
        let (mut keys, mut due) = (self.keys(fits), 31);
        let mut room = self.random.pick(&[0, 2 * fits * RECORD, 24 * RECORD]);
        match self.random.below(6) {
            0 => keys = self.keys(few),
            1 => keys = self.keys(many),
            2 => keys.truncate(32 * fits - 1 - self.random.below(31)),
            3 => keys.extend(self.random.bytes(1)),
            4 => {
                let (to, from) = (1 + self.random.below(fits - 1), self.random.below(fits));
                let from = if from == to { 0 } else { from };
                keys.copy_within(32 * from..32 * from + 32, 32 * to);
            }
            _ => {
                let whole = 2 * fits * RECORD;
                room = self.random.pick(&[whole - 1, whole - 1, whole - RECORD, whole / 2, 0]);
                due = ROOM;
            }
        }
        self.start(&keys, room, due);
    }

    /// Asks on both sides, with so much room.
    fn ask(&mut self, pace: &Pace, room: usize, due: u32) {
        let before = self.random.bytes(room);
        let (mut out, mut their_out) = (before.clone(), before.clone());
        let asked = pace.state.ask(&mut out);
        let their = walks::asked(pace.theirs.ask(&mut their_out));
        let mut right = asked == their && asked.code == due && out == their_out;
        if due == 0 {
            let (step, count) = (pace.state.step as usize, pace.state.count as usize);
            let server = step % count;
            let key = pace.state.keys[32 * server..32 * server + 32].try_into().expect("32 bytes");
            let request = write::request(key, &pace.state.nonce);
            right &= (asked.server, asked.nonce) == (server as u64, pace.state.nonce)
                && out[..request.len()] == request
                && out[request.len()..] == before[request.len()..];
        } else {
            right &= out == before;
        }
        self.hold(ASKS, asked.code, right, || {
            format!("{room} bytes of room: {asked:?}, independent {their:?}, due {due}, or bytes")
        });
    }

    /// Asks as often as a host may: with too little room, with just enough, with more, and again.
    fn ask_around(&mut self, pace: &Pace) {
        let request = trawlbeacon::REQUEST_LENGTH;
        if self.random.once_in(8) {
            let any = self.random.below(request);
            let room = self.random.pick(&[request - 1, request - 1, 0, any]);
            self.ask(pace, room, ROOM);
        }
        let more = request + self.random.below(40);
        let room = self.random.pick(&[request, more]);
        self.ask(pace, room, 0);
        if self.random.once_in(8) {
            self.ask(pace, request, 0);
        }
    }

    /// Takes on both sides, with a pile of so many bytes.
    fn take(&mut self, pace: &mut Pace, heard: &Heard, room: usize, due: tb_took) {
        let took = walks::take(&mut pace.state, heard, &mut pace.pile[..room]);
        let their = pace.theirs.take(heard, &mut pace.their_pile[..room]);
        let their = walks::took(their, heard.response);
        // The byte that a code names is for the two sides to say.
        let due = tb_took { at: took.at, ..due };
        let same = took == their
            && took == due
            && pace.state == walks::laid(&pace.theirs)
            && pace.pile == pace.their_pile;
        let (step, count) = (pace.state.step, pace.state.count);
        self.hold(TAKES, took.code, same, || {
            format!(
                "step {step} of {count} servers: {took:?}, independent {their:?}, due {due:?}, or \
                 the state or the pile"
            )
        });
    }

    /// When a request is sent that nothing is wrong with, and its response received.
    fn right_times(&mut self, state: &tb_walk) -> (u64, u64) {
        let ahead = u64::MAX - state.last;
        let far = if self.random.once_in(60) { number(&mut self.random) } else { 2 };
        let gap = self.random.pick(&[0, 0, 1, 5, 1_000, far]).min(ahead);
        let sent = state.last + gap;
        let most = state.most.min(u64::MAX - sent);
        let all = if state.most <= 1_000 || self.random.once_in(8) { most } else { 3 };
        let delay = self.random.pick(&[0, 1, all, all]).min(most);
        (sent, sent + delay)
    }

    /// Times that are wrong by their clock, by their delay, or by both. There are none where that
    /// cannot be.
    fn wrong_times(&mut self, state: &tb_walk, clock: bool, slow: bool) -> Option<(u64, u64)> {
        let (sent, _) = self.right_times(state);
        let far = number(&mut self.random);
        let by = self.random.pick(&[0, 0, far]);
        if clock && !slow && sent > 0 && (state.last == 0 || self.random.once_in(2)) {
            return Some((sent, (sent - 1).saturating_sub(by)));
        }
        let sent = if clock { state.last.checked_sub(1)?.saturating_sub(by) } else { sent };
        if !slow {
            return Some((sent, sent + 3.min(u64::MAX - sent)));
        }
        let least = state.most.checked_add(1)?.checked_add(sent)?;
        Some((sent, least.saturating_add(by)))
    }

    /// A call that is refused, for one reason or several, of which the first counts. The step can
    /// be tried again after it.
    fn refused(&mut self, pace: &mut Pace, request: &[u8], window: Window, old: &[u8]) {
        let all = [ROOM, CLOCK, DELAY].into_iter().chain(FAULTS);
        let first = self.random.pick(&[0, 1, 2, 3, 3, 3, 3, 3, 3, 4, 5, 6, 7, 8]);
        let mut wrong: Vec<u32> = all.skip(first).collect();
        let kept = wrong[0];
        wrong.retain(|rule| *rule == kept || self.random.once_in(4));
        let (clock, slow) = (wrong.contains(&CLOCK), wrong.contains(&DELAY));
        let times = if clock || slow {
            self.wrong_times(&pace.state, clock, slow)
        } else {
            Some(self.right_times(&pace.state))
        };
        let Some((sent, received)) = times else { return };
        let faults: Vec<u32> = wrong.iter().copied().filter(|rule| FAULTS.contains(rule)).collect();
        let right = walks::answer(&mut self.random, request, &pace.state.nonce, window);
        let mut response = walks::spoilt(&mut self.random, right, &faults);
        // The response to an earlier request has its nonce.
        if faults.first() == Some(&9) && !old.is_empty() && self.random.once_in(3) {
            response.packet = old.to_vec();
        }
        let whole = 2 * pace.state.count as usize * RECORD;
        let room = match kept {
            ROOM => self.random.pick(&[whole - 1, whole - 1, whole - RECORD, whole / 2, 0]),
            _ => pace.pile.len(),
        };
        let code = if [ROOM, CLOCK, DELAY].contains(&kept) { kept } else { response.code };
        let heard = Heard {
            response: &response.packet,
            delegation: response.delegation,
            signature: response.signature,
            sent,
            received,
            rand: self.random.array(),
        };
        let (state, pile) = (pace.state, pace.pile.clone());
        let due = tb_took { code, ..walks::NOTHING };
        self.take(pace, &heard, room, due);
        assert!(pace.state == state && pace.pile == pile, "a refused call changed something");
        self.border("26: received a second before it was sent", sent > 0 && received == sent - 1);
        self.border("26: sent a second before the last was received", {
            state.last > 0 && sent == state.last - 1
        });
        self.border("27: a second longer than allowed", {
            code == DELAY && received - sent == state.most.saturating_add(1)
        });
    }

    /// A call that is accepted. Gives the response.
    fn accepted(&mut self, pace: &mut Pace, request: &[u8], story: &Story, step: usize) -> Vec<u8> {
        let (nonce, window) = (pace.state.nonce, story.windows[step]);
        let fields = walks::answer(&mut self.random, request, &nonce, window);
        let response = fields.packet();
        let (sent, received) = self.right_times(&pace.state);
        self.border("0: sent when the last was received", sent == pace.state.last);
        self.border("0: received when it was sent", sent == received);
        self.border("0: as long as allowed", received - sent == pace.state.most);
        let heard = Heard {
            response: &response,
            delegation: true,
            signature: true,
            sent,
            received,
            rand: self.random.array(),
        };
        let due = walks::due(&story.windows, step, &fields);
        let room = pace.pile.len();
        self.take(pace, &heard, room, due);
        let server = step % pace.state.count as usize;
        let key = pace.state.keys[32 * server..32 * server + 32].to_vec();
        self.written(pace, step, &key, request, &response);
        response
    }

    /// The record of a step stands where it must, with what it must hold.
    fn written(&mut self, pace: &Pace, step: usize, key: &[u8], request: &[u8], response: &[u8]) {
        let record = &pace.pile[step * RECORD..(step + 1) * RECORD];
        let right = record[..32] == *key
            && record[96..96 + request.len()] == *request
            && record[2096..2096 + response.len()] == *response
            && record[64..68] == (request.len() as u32).to_le_bytes()
            && record[68..72] == (response.len() as u32).to_le_bytes();
        if !right {
            self.tally.differs(format!("the record of step {step}"));
        }
    }

    /// The walk is over: nothing is asked or taken any more, with whatever else is wrong.
    fn over(&mut self, pace: &mut Pace, old: &[u8]) {
        let room = self.random.pick(&[0, 1036]);
        self.ask(pace, room, 28);
        let room = self.random.pick(&[0, pace.pile.len()]);
        let (sent, received) = self.random.pick(&[(0, 0), (5, 4), (u64::MAX, u64::MAX)]);
        let rand = self.random.array();
        let [delegation, signature] = [self.random.once_in(2), self.random.once_in(2)];
        let response = self.random.pick(&[old, &[]]);
        let heard = Heard { response, delegation, signature, sent, received, rand };
        let due = tb_took { code: 28, ..walks::NOTHING };
        self.take(pace, &heard, room, due);
    }

    /// The report check with every answer yes says of the pile what the walk said, and the cutter
    /// finds a run in it exactly where the servers contradict each other.
    fn reported(&mut self, pace: &Pace, story: &Story) {
        let pile = &pace.pile[..story.windows.len() * RECORD];
        let yes = vec![1; 2 * story.windows.len()];
        let due = walks::contradiction(&story.windows);
        let ours = trawlbeacon::check_report(pile, &yes);
        let ours =
            ours.map(|Pair { first, second }| (first, second)).map_err(|no| no.refusal.code());
        let theirs = report::check(pile, &yes).map_err(|no| no.refusal.code());
        let due_report = due.ok_or(18);
        let run = trawlbeacon::cut(pile, &yes).map(|cut| (cut.run.first, cut.run.last));
        let their_run = report::run(pile, &yes);
        let same_run = run.ok() == their_run.ok() && their_run.is_ok() == due.is_some();
        let none = their_run.err().map_or(true, |why| why == Refusal::NoContradiction);
        if (ours, theirs) != (due_report, due_report) || !same_run || !none {
            self.tally.differs(format!("the pile: {ours:?}, independent {theirs:?}, run {run:?}"));
        }
    }

    fn walk(&mut self) {
        if self.random.once_in(4) {
            self.bad_start();
        }
        let count = self.random.pick(&[3, 3, 3, 4, 4, 5, 6, 7, 8]);
        let more = self.random.below(3 * RECORD);
        let room = 2 * count * RECORD + self.random.pick(&[0, 0, 1, more]);
        let keys = self.keys(count);
        let Some(mut pace) = self.start(&keys, room, 0) else { return };
        let tail = pace.pile.clone();
        let story = walks::story(&mut self.random, 2 * count);
        let mut old = Vec::new();
        for (step, window) in story.windows.iter().enumerate() {
            self.ask_around(&pace);
            let server = 32 * (step % count);
            let key: &[u8; 32] = keys[server..server + 32].try_into().expect("32 bytes");
            let request = write::request(key, &pace.state.nonce);
            while self.random.once_in(3) {
                self.refused(&mut pace, &request, *window, &old);
            }
            old = self.accepted(&mut pace, &request, &story, step);
            assert!(pace.pile[(step + 1) * RECORD..] == tail[(step + 1) * RECORD..]);
        }
        self.over(&mut pace, &old);
        self.reported(&pace, &story);
        let malfeasance = walks::contradiction(&story.windows).is_some();
        self.ends.entry(count).or_default()[usize::from(malfeasance)] += 1;
        for place in story.lies {
            *self.lies.entry((count, place)).or_insert(0) += 1;
        }
    }
}

#[test]
fn both_sides_walk_alike() {
    let mut seen = Comparison::new(0x5eed_1001);
    for _ in 0..WALKS {
        seen.walk();
    }
    println!(
        "{WALKS} walks over 3 to 8 servers, ours compared with independent after every call; how \
         often each code was given:"
    );
    println!("{}", seen.tally.table("code"));
    println!("walks by their servers, consistent and malfeasance: {:?}", seen.ends);
    println!("calls just at a limit and just beyond it: {:#?}", seen.borders);
    let least = seen.lies.values().min().copied().unwrap_or(0);
    println!("{} places of lies, each met {least} times or more", seen.lies.len());
    seen.tally.no_difference();
    seen.tally.at_least(1_000, STARTS, [0, 19, 31]);
    seen.tally.at_least(10_000, ASKS, [0, 19, 28]);
    seen.tally.at_least(1_000, TAKES, (0..=13).chain([19, 26, 27, 28]));
    // Two steps for each of 3 to 8 servers.
    assert!(seen.lies.len() == 66 && least >= 100);
    assert!(seen.ends.values().flatten().all(|walks| *walks >= 500), "an end was met too seldom");
    assert!(seen.borders.values().all(|met| *met >= 1_000), "a limit was met too seldom");
    counted(seen.ends.values().flatten().sum(), "measuring walks");
}

/// What the made-up states are given, in memory that ends at a page nobody may touch.
struct Fences {
    response: Guarded,
    pile: Guarded,
    out: Guarded,
}

/// A response for a state: valid, damaged, or any bytes.
fn any_response(random: &mut Xorshift, state: &tb_walk) -> Reply {
    let count = state.count.clamp(1, 8);
    let at = 32 * (state.step % count) as usize;
    let key = state.keys[at..at + 32].try_into().expect("32 bytes");
    let request = write::request(key, &state.nonce);
    let midp = random.pick(&[900, 1_000, 1_000, 1_100]);
    let right = walks::answer(random, &request, &state.nonce, (midp, 10));
    let fault = random.pick(&FAULTS);
    let faults = if random.once_in(3) { vec![fault] } else { vec![] };
    let mut reply = walks::spoilt(random, right, &faults);
    if random.once_in(8) {
        let length = random.below(2_100);
        reply.packet = random.bytes(length);
    }
    reply
}

/// The response in a record of a pile.
fn response_at(pile: &[u8], record: usize) -> &[u8] {
    let at = record * RECORD;
    let length = u32::from_le_bytes(pile[at + 68..at + 72].try_into().expect("4 bytes"));
    &pile[at + 2096..at + 2096 + length as usize]
}

/// A state before its last step, with a pile that it could have written but for the keys.
fn before_the_last(random: &mut Xorshift, chain: &[u8]) -> (tb_walk, Vec<u8>) {
    let mut state = walks::unstarted(random);
    state.count = 3 + random.below(6) as u64;
    state.step = 2 * state.count - 1;
    (state.last, state.most) = (0, u64::MAX);
    state.nonce = hash::link(response_at(chain, state.step as usize - 1), &state.rand);
    (state, chain[..2 * state.count as usize * RECORD].to_vec())
}

fn made_up_call(random: &mut Xorshift, fences: &mut Fences, chain: &[u8], tally: &mut Tally) {
    let (state, pile) = if random.once_in(6) {
        before_the_last(random, chain)
    } else {
        let state = walks::made_up(random);
        (state, walks::any_pile(random, &state, chain))
    };
    let mut theirs = walks::read_back(&state);
    let mut between = Between::new(state);

    let length = random.pick(&[0, 1035, 1036, 1036, 1050]);
    let before = random.bytes(length);
    let (asked, out) = fences.out.lend(&before, |out| between.state.ask(out));
    let mut their_out = before;
    let their_asked = walks::asked(theirs.ask(&mut their_out));
    tally.count(ASKS, asked.code);
    if asked != their_asked || out != their_out || between.state != state {
        tally.differs(format!("{state:?}: {asked:?}, independent {their_asked:?}, or bytes"));
    }

    let Reply { packet, delegation, signature, .. } = any_response(random, &state);
    let sent =
        walks::edge(random, &[state.last, state.last, state.last.saturating_sub(1), u64::MAX]);
    let latest = sent.saturating_add(state.most);
    let received = walks::edge(random, &[sent, sent, latest, latest.saturating_add(1), 0]);
    let rand = random.array();
    let heard = Heard { response: &packet, delegation, signature, sent, received, rand };
    let (took, after) = fences.pile.lend(&pile, |lent| {
        fences.response.show(&packet, |response| {
            walks::take(&mut between.state, &Heard { response, ..heard }, lent)
        })
    });
    let mut their_pile = pile;
    let their_took = walks::took(theirs.take(&heard, &mut their_pile), &packet);
    tally.count(TAKES, took.code);
    tally.count(OUTCOMES, took.outcome);
    let moved = tb_walk {
        step: theirs.accepted,
        nonce: theirs.nonce,
        rand: theirs.rand,
        last: theirs.last,
        ..state
    };
    let same = took == their_took && after == their_pile && between.state == moved;
    if !same || !between.untouched() {
        tally.differs(format!("{state:?}: {took:?}, independent {their_took:?}, or bytes"));
    }
}

/// States that no start led to: both sides answer the same, and nothing is read or written outside
/// of what was lent.
#[test]
fn made_up_states_do_no_harm() {
    let mut random = Xorshift::new(0x5eed_1002);
    let mut tally = Tally::new(&[ASKS, TAKES, OUTCOMES]);
    let room = 19 * RECORD;
    let mut fences = Fences {
        response: Guarded::new(2_100),
        pile: Guarded::new(room),
        out: Guarded::new(1_100),
    };
    let chain = independent::making::pile_of(&[(1_000, 10); 16]).pile;
    for _ in 0..MADE_UP {
        made_up_call(&mut random, &mut fences, &chain, &mut tally);
    }
    println!(
        "{MADE_UP} made-up states, asked and given a response, in memory that ends at a fence; how \
         often each code was given, and how often each outcome:"
    );
    println!("{}", tally.table("code"));
    tally.no_difference();
    tally.at_least(500, ASKS, [0, 19, 28]);
    tally.at_least(20, TAKES, (0..=13).chain([19, 26, 27, 28]));
    tally.at_least(200, OUTCOMES, raw::TB_NOTHING_SAID..=raw::TB_PILE_ALTERED);
}

/// A bit of the pile is turned before the last response is taken. That is told, and never as
/// consistent, unless it is one of a key: no key is read.
#[test]
fn an_altered_pile_is_told_as_that() {
    let mut random = Xorshift::new(0x5eed_1005);
    let mut tally = Tally::new(&[OUTCOMES]);
    for _ in 0..ALTERED {
        let count = 3 + random.below(6);
        let (keys, nonce) = (random.bytes(32 * count), random.array());
        let mut pile = random.bytes(2 * count * RECORD);
        let mut their_pile = pile.clone();
        let mut state = tb_walk::NONE;
        assert_eq!(state.start(&keys, &nonce, 0, &pile), 0);
        let mut theirs = walk::Walk::start(&keys, &nonce, 0, &pile).expect("nothing is wrong");
        let story = walks::story(&mut random, 2 * count);
        let mut at = 0;
        for (step, window) in story.windows.iter().enumerate() {
            let mut request = [0; trawlbeacon::REQUEST_LENGTH];
            let asked = state.ask(&mut request);
            let response = walks::answer(&mut random, &request, &asked.nonce, *window).packet();
            if step + 1 == 2 * count {
                let places = [32, 72, 1132, 2096, 2096 + response.len(), RECORD];
                let before = random.pick(&places);
                at = RECORD * random.below(step) + random.below(before);
                pile[at] ^= 1 << random.below(8);
                their_pile[at] = pile[at];
            }
            let [sent, received] = [step as u64; 2];
            let rand = random.array();
            let (delegation, signature) = (true, true);
            let heard = Heard { response: &response, delegation, signature, sent, received, rand };
            let took = walks::take(&mut state, &heard, &mut pile);
            let their = walks::took(theirs.take(&heard, &mut their_pile), &response);
            assert_eq!((took, state), (their, walks::laid(&theirs)));
            assert!(pile == their_pile);
            if step + 1 == 2 * count {
                tally.count(OUTCOMES, took.outcome);
                let told = took.outcome == raw::TB_PILE_ALTERED;
                assert_eq!(told, at % RECORD >= 32, "byte {at} was altered");
            }
        }
    }
    println!("{ALTERED} walks whose pile was altered:\n{}", tally.table("end"));
    tally.at_least(200, OUTCOMES, raw::TB_CONSISTENT..=raw::TB_PILE_ALTERED);
}

/// Keys of every number of bytes, which end at a fence, and a buffer that is only as long as said.
#[test]
fn starts_read_no_further_than_their_keys() {
    let mut random = Xorshift::new(0x5eed_1003);
    let (mut keys, mut pile) = (Guarded::new(400), Guarded::new(16 * RECORD));
    let mut tally = Tally::new(&[STARTS]);
    for length in 0..=320 {
        let count = length / 32;
        for room in [0, 2 * count * RECORD, (2 * count * RECORD).saturating_sub(1)] {
            let (servers, buffer) = (random.bytes(length), random.bytes(room.min(16 * RECORD)));
            let nonce: Hash = random.array();
            let before = walks::unstarted(&mut random);
            let mut between = Between::new(before);
            let code = keys.show(&servers, |servers| {
                pile.show(&buffer, |pile| between.state.start(servers, &nonce, 7, pile))
            });
            let theirs = walk::Walk::start(&servers, &nonce, 7, &buffer);
            let laid = theirs.as_ref().map_or(before, walks::laid);
            let due = theirs.map_or_else(Refusal::code, |_| 0);
            assert_eq!((code, between.state), (due, laid), "{length} bytes of keys");
            assert!(between.untouched());
            tally.count(STARTS, code);
        }
    }
    println!("keys of 0 to 320 bytes:\n{}", tally.table("code"));
    tally.at_least(6, STARTS, [0, 19, 31]);
}

/// The safe walk holds its own pile, and says and holds what the calls with a lent one say and
/// write.
#[test]
fn the_safe_walk_is_the_lent_one() {
    let mut random = Xorshift::new(0x5eed_1004);
    let mut refused = 0;
    for _ in 0..SAFE {
        let count = 3 + random.below(6);
        let keys: Vec<[u8; 32]> = (0..count).map(|_| random.array()).collect();
        let nonce = random.array();
        let mut state = walks::unstarted(&mut random);
        let mut pile = vec![0; 2 * count * RECORD];
        assert_eq!(state.start(&keys.concat(), &nonce, 5, &pile), 0);
        let mut walk = Walk::start(&keys, &nonce, 5).expect("3 to 8 different keys");
        let story = walks::story(&mut random, 2 * count);
        let mut said = Outcome::GoesOn;
        for (step, window) in story.windows.iter().enumerate() {
            assert_eq!((said, walk.state()), (Outcome::GoesOn, state));
            let asked = walk.ask().expect("the walk goes on");
            let mut out = [0; trawlbeacon::REQUEST_LENGTH];
            let raw = state.ask(&mut out);
            assert_eq!((asked.server as u64, asked.nonce), (raw.server, raw.nonce));
            assert_eq!(asked.request, out);
            let right = walks::answer(&mut random, &out, &asked.nonce, *window);
            let fault = random.pick(&FAULTS);
            let bad = walks::spoilt(&mut random, right.clone(), &[fault]);
            let (sent, rand) = (10 * step as u64, random.array());
            for (packet, delegation, signature, delay) in [
                (&bad.packet, bad.delegation, bad.signature, 5),
                (&bad.packet, bad.delegation, bad.signature, 6),
                (&right.packet(), true, true, 5),
            ] {
                let received = sent + delay;
                let heard = Heard { response: packet, delegation, signature, sent, received, rand };
                let took = walks::take(&mut state, &heard, &mut pile);
                let heard = trawlbeacon::Heard { delegation, signature, sent, received, rand };
                // What is kept and gone on with is the same walk.
                walk = Walk::resume(walk.state(), pile_of(&walk, count));
                let taken = walk.take(packet, &heard);
                assert_eq!(walks::safe(taken), took);
                match taken {
                    Err(_) => refused += 1,
                    Ok(taken) => said = taken.outcome,
                }
                assert_eq!(walk.state(), state);
                assert!(walk.pile() == &pile[..state.step as usize * RECORD]);
            }
        }
        let due = walks::contradiction(&story.windows)
            .map_or(Outcome::Consistent, |(first, second)| {
                Outcome::Malfeasance(Pair { first, second })
            });
        assert_eq!(said, due);
        assert_eq!(walk.ask().map_err(|why| why.code()), Err(28));
    }
    assert_eq!(Walk::start(&[[1; 32], [2; 32]], &[0; 32], 5).map_err(|why| why.code()), Err(31));
    assert_eq!(Walk::start(&[[1; 32]; 1_000], &[0; 32], 5).map_err(|why| why.code()), Err(31));
    println!("{SAFE} walks by the safe type, with {refused} refused calls, as with a lent pile");
}

/// What a host loops over: the code at which it stops, how often it asked, and the last outcome.
fn looped(
    state: &mut tb_walk,
    pile: &mut [u8],
    answer: &mut dyn FnMut(&[u8], &Hash) -> Vec<u8>,
) -> (u32, usize, u32) {
    let (mut took, mut turns) = (walks::NOTHING, 0);
    loop {
        let mut request = [0; trawlbeacon::REQUEST_LENGTH];
        let asked = state.ask(&mut request);
        if asked.code != 0 {
            return (asked.code, turns, took.outcome);
        }
        turns += 1;
        let response = answer(&request, &asked.nonce);
        took = state.take([1, 1], [turns as u64; 2], &[7; 32], &response, pile);
    }
}

/// A loop that is gone on with once its walk has ended ends at once, whether it goes by the code of
/// what is asked or by the outcome: nothing that stands beside a refusal says that the walk goes on.
#[test]
fn a_loop_over_a_walk_that_has_ended_ends() {
    let mut random = Xorshift::new(0x5eed_1006);
    for count in 3..=8 {
        let keys: Vec<[u8; 32]> = (0..count).map(|_| random.array()).collect();
        let mut pile = vec![0; 2 * count * RECORD];
        let mut state = tb_walk::NONE;
        assert_eq!(state.start(&keys.concat(), &[3; 32], 0, &pile), 0);
        let mut tries = 0;
        let mut answer = |request: &[u8], nonce: &Hash| {
            tries += 1;
            let mut packet = walks::answer(&mut random, request, nonce, (1_000, 5)).packet();
            // One response in two is refused, and the same is asked again.
            packet[0] ^= tries % 2;
            packet
        };
        let said = looped(&mut state, &mut pile, &mut answer);
        assert_eq!(said, (28, 4 * count, raw::TB_CONSISTENT));
        let mut nobody = |_: &[u8], _: &Hash| panic!("a walk that has ended asks");
        let again = looped(&mut state, &mut pile, &mut nobody);
        assert_eq!(again, (28, 0, raw::TB_NOTHING_SAID));
        // By the outcome.
        let (mut outcome, mut turns) = (raw::TB_GOES_ON, 0);
        while outcome == raw::TB_GOES_ON {
            turns += 1;
            let took = state.take([1, 1], [u64::MAX; 2], &[7; 32], &pile[2096..2500], &mut []);
            assert_eq!(took, tb_took { code: 28, ..walks::NOTHING });
            outcome = took.outcome;
        }
        assert_eq!(turns, 1);
        // The safe walk.
        let mut walk = Walk::resume(state, pile);
        assert_eq!(walk.ask(), Err(trawlbeacon::Refusal::Ended));
        let taken = walk.take_signed(&[], 0, 0, &[0; 32]);
        assert_eq!(taken.map_err(|why| why.refusal), Err(trawlbeacon::Refusal::Ended));
    }
}

/// The pile of a walk in a buffer for all of it.
fn pile_of(walk: &Walk, count: usize) -> Vec<u8> {
    let mut pile = walk.pile().to_vec();
    pile.resize(2 * count * RECORD, 0);
    pile
}
