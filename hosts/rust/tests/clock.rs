//! The time, though servers lie: the proved library and the independent implementation are led
//! through the same courses of time, in which the client's clock is off by as much as it states,
//! and servers are honest, lie, or are silent. After every call both must have answered the same in
//! every field, and have the same state; and who knows the true time must find it in the answer,
//! wherever no more lie than may.

mod support;

use independent::clock::{self, Heard, Time};
use independent::course::{Course, Dice, Known, Step};
use independent::refusal::Refusal;
use std::collections::BTreeMap;
use std::thread;
use support::clocks::{self, laid, told};
use support::packets::number;
use support::{counted, Xorshift};
use trawlbeacon::raw::{tb_clock, tb_time};
use trawlbeacon::Clock;

const COURSES: usize = 1_000_000;
const THREADS: usize = 2;
const MADE_UP: usize = 400_000;

/// How often each code was answered, and what else was met.
#[derive(Default)]
struct Seen {
    starts: BTreeMap<u32, usize>,
    takes: BTreeMap<u32, usize>,
    asks: BTreeMap<u32, usize>,
    met: BTreeMap<&'static str, usize>,
}

impl Seen {
    fn met(&mut self, what: &'static str, is_so: bool) {
        *self.met.entry(what).or_default() += usize::from(is_so);
    }

    fn add(&mut self, other: Seen) {
        let Seen { starts, takes, asks, met } = other;
        for (mine, theirs) in
            [(&mut self.starts, starts), (&mut self.takes, takes), (&mut self.asks, asks)]
        {
            theirs.into_iter().for_each(|(code, more)| *mine.entry(code).or_default() += more);
        }
        met.into_iter().for_each(|(what, more)| *self.met.entry(what).or_default() += more);
    }

    fn calls(&self) -> usize {
        [&self.starts, &self.takes, &self.asks].iter().flat_map(|codes| codes.values()).sum()
    }
}

/// A question and what was said, to see that it stays so.
struct Said {
    moment: u64,
    liars: u64,
    time: tb_time,
    usable: Vec<(usize, Vec<Heard>)>,
}

/// A clock on both sides, in a course.
struct Pace<'a> {
    course: &'a Course,
    state: tb_clock,
    theirs: clock::Clock,
    /// What was last said, where nothing was taken since.
    said: Option<Said>,
}

impl<'a> Pace<'a> {
    fn start(course: &'a Course, seen: &mut Seen) -> Pace<'a> {
        let mut state = tb_clock { drift: 7, received: [9; 16], ..tb_clock::ZERO };
        let code = state.start(course.drift);
        let theirs = clock::Clock::start(course.drift).expect("it is below a million");
        assert_eq!((code, state), (0, laid(&theirs)));
        *seen.starts.entry(code).or_default() += 1;
        Pace { course, state, theirs, said: None }
    }

    fn take(&mut self, server: u64, heard: &Heard, seen: &mut Seen) {
        let code = clocks::take(&mut self.state, server, heard);
        let their = self.theirs.take(server, *heard).map_or_else(Refusal::code, |()| 0);
        assert_eq!((code, self.state), (their, laid(&self.theirs)), "{server}, {heard:?}");
        *seen.takes.entry(code).or_default() += 1;
        if code == 0 {
            self.said = None;
        }
    }

    fn ask(&mut self, moment: u64, liars: u64, seen: &mut Seen) {
        let time = self.state.now(moment, liars);
        let theirs = self.theirs.now(moment, liars);
        assert_eq!(time, told(&theirs), "moment {moment}, {liars} liars of {:?}", self.theirs);
        *seen.asks.entry(time.code).or_default() += 1;
        let known = self.course.judge(&self.theirs, moment, liars, &theirs);
        let known = known.unwrap_or_else(|why| {
            panic!("{why}: moment {moment}, {liars} liars: {theirs:?} of {:?}", self.course)
        });
        note(seen, &known, liars, &theirs);
        if time.code != 26 {
            self.stays(moment, liars, time, seen);
        }
    }

    /// What was said is said later, too, as long as the same can be used: but for the ends, which
    /// drift on.
    fn stays(&mut self, moment: u64, liars: u64, time: tb_time, seen: &mut Seen) {
        let usable = self.theirs.usable(moment);
        let now = Said { moment, liars, time, usable };
        let same = self.said.as_ref().filter(|before| {
            before.liars == liars && before.moment <= moment && before.usable == now.usable
        });
        seen.met("answers that stayed", same.is_some());
        if let Some(Said { time: before, .. }) = same {
            let but = tb_time { low: time.low, high: time.high, stopped: time.stopped, ..*before };
            assert_eq!(but, time);
            assert!(before.low <= time.low && before.high <= time.high);
        }
        self.said = Some(now);
    }
}

/// What kind of answer it was.
fn note(seen: &mut Seen, known: &Known, liars: u64, answer: &Result<Time, Refusal>) {
    let Known { counted, lying, sound } = *known;
    let Ok(time) = answer else {
        seen.met("refusals, since more lie than may", *answer == Err(Refusal::NoAgreement));
        return;
    };
    let exact = 2 * liars < counted as u64;
    seen.met("right times", sound);
    seen.met("right times, though a server lies", sound && lying > 0);
    seen.met("right times, though as many lie as may", sound && lying as u64 == liars && lying > 0);
    seen.met("right times of less than half that may lie", sound && exact);
    seen.met("right times with suspects", sound && !time.suspects.is_empty());
    seen.met("right times of 8 servers", sound && counted == 8);
    seen.met("times that stopped", time.stopped);
    seen.met("right times in the first minute of 1970", sound && time.low < 60_000_000);
    seen.met("times where more lie than may", lying as u64 > liars);
}

/// Leads both sides through so many courses.
fn lead(seed: u64, courses: usize) -> Seen {
    let (mut dice, mut seen) = (Dice::new(seed), Seen::default());
    for _ in 0..courses {
        let course = Course::draw(&mut dice);
        let mut pace = Pace::start(&course, &mut seen);
        for step in &course.steps {
            match step {
                Step::Take(server, heard) => pace.take(*server, heard, &mut seen),
                Step::Ask(moment, liars) => pace.ask(*moment, *liars, &mut seen),
            }
        }
    }
    seen
}

#[test]
fn the_true_time_is_always_inside_and_both_sides_say_the_same() {
    let mut seen = Seen::default();
    thread::scope(|scope| {
        let share = |part: u64| move || lead(0x5eed_3611 + part, COURSES / THREADS);
        let parts: Vec<_> = (0..THREADS as u64).map(|part| scope.spawn(share(part))).collect();
        parts.into_iter().for_each(|part| seen.add(part.join().expect("it has ended well")));
    });
    println!("{} calls in {COURSES} courses of time, by their codes:", seen.calls());
    println!("  start {:?}\n  take {:?}\n  now {:?}", seen.starts, seen.takes, seen.asks);
    seen.met.iter().for_each(|(what, count)| println!("{count:>9} {what}"));
    assert!([0, 26, 32].iter().all(|code| seen.takes[code] >= 5_000));
    assert!([0, 26, 33, 34].iter().all(|code| seen.asks[code] >= 50_000));
    assert!(seen.met.values().all(|count| *count >= 20_000), "some kind was hardly met");
    counted(seen.starts[&0], "courses of time, with servers that lie");
}

#[test]
fn states_that_no_start_led_to() {
    let mut random = Xorshift::new(0x5eed_3613);
    let mut seen = Seen::default();
    for _ in 0..MADE_UP {
        let before = clocks::made_up(&mut random);
        let theirs = clocks::read_back(&before);
        assert_eq!(laid(&theirs), before);
        started(&mut random, before, &mut seen);
        took(&mut random, before, theirs, &mut seen);
        for liars in [0, 1, random.below(9) as u64] {
            let last = before.received.iter().copied().max().expect("there are 16");
            let (any, soon) = (number(&mut random), last.saturating_add(random.below(9) as u64));
            let moment = random.pick(&[last, soon, soon, last.saturating_sub(1), any, u64::MAX]);
            let time = before.now(moment, liars);
            let due = told(&theirs.now(moment, liars));
            assert_eq!(time, due, "moment {moment}, {liars} liars of {theirs:?}");
            *seen.asks.entry(time.code).or_default() += 1;
        }
    }
    let Seen { starts, takes, asks, .. } = seen;
    println!("{MADE_UP} states of clocks that no start led to, by the codes:");
    println!("  start {starts:?}\n  take {takes:?}\n  now {asks:?}");
    assert!([0, 26, 33, 34].iter().all(|code| asks[code] >= 10_000));
    counted(MADE_UP, "states of a clock that no start led to");
}

/// A start writes over any state, or leaves it.
fn started(random: &mut Xorshift, before: tb_clock, seen: &mut Seen) {
    let any = number(random) as u32;
    let drift = random.pick(&[0, 999_999, 1_000_000, 1_000_001, u32::MAX, any]);
    let mut state = before;
    let code = state.start(drift);
    let theirs = clock::Clock::start(drift);
    let due = theirs.as_ref().map_or(before, laid);
    assert_eq!((code, state), (theirs.map_or_else(Refusal::code, |_| 0), due), "{drift}");
    assert_eq!(Clock::start(drift).map_or_else(|why| why.code(), |_| 0), code);
    *seen.starts.entry(code).or_default() += 1;
}

/// A window of any numbers, for any server.
fn took(random: &mut Xorshift, before: tb_clock, mut theirs: clock::Clock, seen: &mut Seen) {
    let mut state = before;
    let server = if random.once_in(8) { number(random) } else { random.below(8) as u64 };
    let [low, high, maxt, sent, any] = [0; 5].map(|_| number(random));
    let received = random.pick(&[sent, sent.saturating_add(1), sent.saturating_sub(1), any]);
    let heard = Heard { low, high, maxt, sent, received };
    let code = clocks::take(&mut state, server, &heard);
    let due = theirs.take(server, heard).map_or_else(Refusal::code, |()| 0);
    assert_eq!((code, state), (due, laid(&theirs)), "{server}, {heard:?}");
    *seen.takes.entry(code).or_default() += 1;
}

/// The package's own clock says what its state does.
#[test]
fn the_safe_clock_is_the_same() {
    let mut dice = Dice::new(0x5eed_3614);
    let mut answers = 0;
    for _ in 0..20_000 {
        let course = Course::draw(&mut dice);
        let mut state = tb_clock::ZERO;
        assert_eq!(state.start(course.drift), 0);
        let mut clock = Clock::start(course.drift).expect("it is below a million");
        for step in &course.steps {
            match step {
                Step::Take(server, heard) => {
                    let code = clocks::take(&mut state, *server, heard);
                    let window = clocks::window(heard);
                    let took = clock.take(*server as usize, &window, heard.sent, heard.received);
                    assert_eq!(took.map_or_else(|why| why.code(), |()| 0), code);
                }
                Step::Ask(moment, liars) => same_time(&state, &clock, *moment, *liars),
            }
            answers += 1;
        }
        assert_eq!(clock.state(), state);
        assert_eq!(Clock::resume(state), clock);
    }
    println!("{answers} calls of the safe clock");
}

fn same_time(state: &tb_clock, clock: &Clock, moment: u64, liars: u64) {
    let raw = state.now(moment, liars);
    let time = match clock.now(moment, liars) {
        Ok(time) => time,
        Err(why) => return assert_eq!(why.code(), raw.code),
    };
    let told = (time.low, time.high, time.stopped, time.counted as u64);
    assert_eq!((raw.code, told), (0, (raw.low, raw.high, raw.stopped == 1, raw.counted)));
    for (set, bits) in [(time.agree, raw.agree), (time.suspects, raw.suspects)] {
        assert_eq!((set.bits(), set.is_empty()), (bits, bits == 0));
        assert_eq!(set.iter().map(|server| 1 << server).sum::<u64>(), bits);
        assert!((0..70).all(|server| set.contains(server) == set.iter().any(|one| one == server)));
    }
    assert_eq!(time.is_exact(liars), 2 * u128::from(liars) < u128::from(raw.counted));
}
