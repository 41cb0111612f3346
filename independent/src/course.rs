//! Courses of time, to try a clock with: a true time that the client's own clock follows as well as
//! it states, and servers that are honest, lie, or are silent.
//!
//! The client's clock is told in nanoseconds, and the true time in millionths of one: so a clock
//! that is off by parts of a million has whole numbers at every moment.

use crate::clock::{Agreed, Clock, Heard, Time, SERVERS};
use crate::refusal::Refusal;

/// Nanoseconds of a microsecond.
const MICRO: u128 = 1_000;

/// Millionths of a nanosecond, in a nanosecond, in a microsecond and in a second.
const NANO: i128 = 1_000_000;
const FINE: i128 = 1_000 * NANO;
const SECOND: i128 = 1_000_000 * FINE;

/// Numbers without a pattern, and the same in every run: Marsaglia's xorshift64.
pub struct Dice(u64);

impl Dice {
    /// The seed must not be 0, which xorshift never leaves.
    pub fn new(seed: u64) -> Dice {
        assert_ne!(seed, 0);
        Dice(seed)
    }

    /// The next 64 bits.
    pub fn roll(&mut self) -> u64 {
        self.0 ^= self.0 << 13;
        self.0 ^= self.0 >> 7;
        self.0 ^= self.0 << 17;
        self.0
    }

    /// A number from 0 to `end - 1`.
    pub fn below(&mut self, end: u64) -> u64 {
        self.roll() % end
    }

    /// The same, for more than 64 bits.
    fn wide_below(&mut self, end: u128) -> u128 {
        (u128::from(self.roll()) << 64 | u128::from(self.roll())) % end
    }

    /// A number of any size.
    pub fn number(&mut self) -> u64 {
        let bits = self.below(65) as u32;
        self.roll().checked_shr(bits).unwrap_or(0)
    }

    fn once_in(&mut self, times: u64) -> bool {
        self.below(times) == 0
    }

    fn pick<T: Copy>(&mut self, from: &[T]) -> T {
        from[self.below(from.len() as u64) as usize]
    }
}

/// The true time, at every moment of the client's clock.
#[derive(Clone, Debug)]
pub struct Truth {
    /// The nanosecond of the client's clock at which a piece begins, and how many millionths of one
    /// pass in truth with each that the clock then counts.
    pieces: Vec<(u128, i128)>,
    /// The true time at the first of them, in millionths of a nanosecond since 1970.
    base: i128,
}

impl Truth {
    /// What has passed in truth since the first piece began.
    fn passed(&self, nanos: u128) -> i128 {
        let ends = self.pieces.iter().skip(1).map(|piece| piece.0).chain([u128::MAX]);
        let piece = |(&(start, rate), end): (&(u128, i128), u128)| {
            nanos.min(end).saturating_sub(start) as i128 * rate
        };
        self.pieces.iter().zip(ends).map(piece).sum()
    }

    fn at(&self, nanos: u128) -> i128 {
        self.base + self.passed(nanos)
    }

    /// The true time at a microsecond of the client's clock, in millionths of a nanosecond.
    pub fn at_micro(&self, moment: u64) -> i128 {
        self.at(u128::from(moment) * MICRO)
    }

    /// Whether it was, at some moment between request and response, what the window says.
    pub fn is_true(&self, heard: &Heard) -> bool {
        let [low, high] = [heard.low, heard.high].map(|second| i128::from(second) * SECOND);
        low <= high && self.at_micro(heard.sent) <= high && low <= self.at_micro(heard.received)
    }
}

/// What a client does.
#[derive(Clone, Copy, Debug)]
pub enum Step {
    /// It takes what a server said.
    Take(u64, Heard),
    /// It asks for the time at a moment, where so many may lie.
    Ask(u64, u64),
}

impl Step {
    fn moment(&self) -> u64 {
        match self {
            Step::Take(_, heard) => heard.received,
            Step::Ask(moment, _) => *moment,
        }
    }
}

/// A course of time, and what a client does in it.
#[derive(Clone, Debug)]
pub struct Course {
    /// How far the client's clock goes wrong at the most, in parts per million.
    pub drift: u32,
    /// What time it is.
    pub truth: Truth,
    /// What the client does.
    pub steps: Vec<Step>,
}

/// What a server is.
#[derive(Clone, Copy, Debug, PartialEq, Eq)]
enum Character {
    Honest,
    /// Its clock is off by so many seconds.
    Off(i64),
    /// It says anything.
    Wild,
    /// It is honest now and then.
    Moody(i64),
}

/// A request and its response: when by the client's clock, in nanoseconds.
#[derive(Clone, Copy, Debug)]
struct Exchange {
    server: usize,
    sent: u128,
    received: u128,
    /// When the server looked at its own clock.
    looked: u128,
}

/// When a course is, by the client's clock: its first nanosecond, and how many there are.
#[derive(Clone, Copy, Debug)]
struct Stretch {
    start: u128,
    length: u128,
}

impl Stretch {
    fn draw(dice: &mut Dice) -> Stretch {
        let micros =
            dice.pick(&[50, 3_000, 2_000_000, 60_000_000, 100_000_000_000, 1 << 51, 1 << 63]);
        let length = 1 + dice.below(micros);
        let near = dice.below(1_000);
        let any = dice.number();
        let start = dice.pick(&[0, near, near << 20, u64::MAX - length - near, any]);
        let start = start.min(u64::MAX - length);
        Stretch { start: u128::from(start) * MICRO, length: u128::from(length) * MICRO }
    }

    fn moment(&self, dice: &mut Dice) -> u128 {
        let edge = dice.pick(&[0, self.length]);
        let within = dice.wide_below(self.length);
        self.start + if dice.once_in(8) { edge } else { within }
    }
}

/// How fast the true time goes, where the clock is off by this at the most: always at one bound,
/// always at the other, at both in turn, anywhere between, or as fast as the clock.
fn pieces(dice: &mut Dice, stretch: &Stretch, drift: u32) -> Vec<(u128, i128)> {
    let bound = i128::from(drift);
    let mut starts: Vec<u128> = (0..dice.below(4)).map(|_| stretch.moment(dice)).collect();
    starts.sort_unstable();
    starts.insert(0, stretch.start);
    let (way, mut sign) = (dice.below(5), dice.pick(&[-1, 1]));
    let mut rate = |dice: &mut Dice| {
        let between = i128::from(dice.below(2 * u64::from(drift) + 1)) - bound;
        sign = if way == 1 { -sign } else { sign };
        match way {
            0..=2 => NANO + sign * bound,
            3 => NANO + between,
            _ => NANO,
        }
    };
    starts.into_iter().map(|start| (start, rate(dice))).collect()
}

/// A second for the true time to be at: an ordinary one, one near either end of what can be told in
/// microseconds or in seconds, or any.
fn second(dice: &mut Dice) -> u64 {
    let near = dice.below(20);
    let (last, any) = (u64::MAX / 1_000_000, dice.number() >> 16);
    let ordinary = 1_794_829_000 + near;
    dice.pick(&[
        ordinary,
        ordinary,
        ordinary,
        near,
        near,
        last - near,
        last + near,
        any,
        u64::MAX - near,
    ])
}

fn exchange(dice: &mut Dice, stretch: &Stretch, server: usize) -> Exchange {
    let [one, other] = [0; 2].map(|_| stretch.moment(dice));
    let (near, end) = (u128::from(dice.below(2_000_000)), stretch.start + stretch.length);
    let other = if dice.once_in(4) { other } else { (one + dice.pick(&[0, 1, near])).min(end) };
    let (sent, received) = (one.min(other), one.max(other));
    let within = sent + dice.wide_below(received - sent + 1);
    Exchange { server, sent, received, looked: dice.pick(&[sent, received, within]) }
}

/// The window that a server with this character tells where it is that time.
fn window(dice: &mut Dice, character: Character, time: i128) -> (u64, u64) {
    let off = match character {
        Character::Honest => 0,
        Character::Off(by) => by,
        Character::Moody(by) => dice.pick(&[0, by]),
        Character::Wild => return (dice.number(), dice.number()),
    };
    let seconds = |time: i128| u64::try_from(time.max(0)).unwrap_or(u64::MAX);
    let mut wider = || i128::from(dice.pick(&[0, 0, 0, 1, 1, 3, 10, 3_600]));
    let (down, up) = (time.div_euclid(SECOND) - wider(), wider() - (-time).div_euclid(SECOND));
    (seconds(down + i128::from(off)), seconds(up + i128::from(off)))
}

/// The last second that the key of a window is trusted for: mostly long after it.
fn maxt(dice: &mut Dice, high: u64) -> u64 {
    let any = dice.number();
    match dice.below(12) {
        0 => high.saturating_add(dice.pick(&[0, 1, 2, 60, 86_400])),
        1 => dice.pick(&[high.saturating_sub(1), 0, any, any]),
        2 | 3 => u64::MAX,
        _ => high.saturating_add(1 << 40),
    }
}

/// What each server is: some of them lie, by the same or each by its own.
fn characters(dice: &mut Dice, servers: usize, lying: usize) -> Vec<Character> {
    let common = dice.pick(&[-9, -2, -1, 1, 2, 9, 86_400]);
    let mut all: Vec<Character> = (0..servers).map(|_| Character::Honest).collect();
    for _ in 0..lying {
        let own = dice.pick(&[-86_400, -60, -4, -3, -2, -1, 1, 2, 3, 4, 60, 86_400]);
        let server = dice.below(servers as u64) as usize;
        all[server] = match dice.below(8) {
            0 => Character::Wild,
            1 => Character::Moody(own),
            2 | 3 => Character::Off(own),
            _ => Character::Off(common),
        };
    }
    all
}

impl Course {
    /// Any course.
    pub fn draw(dice: &mut Dice) -> Course {
        let any = dice.below(1_000_000) as u32;
        let drift = dice.pick(&[0, 1, 20, 100, 100, 500, 1_000, 50_000, 500_000, 999_999, any]);
        let stretch = Stretch::draw(dice);
        let servers = 1 + dice.below(SERVERS as u64) as usize;
        let lying = dice.below(servers as u64 / 2 + 2) as usize;
        let mut exchanges = Vec::new();
        for server in 0..servers {
            // One in eight is silent.
            let said = dice.pick(&[0, 1, 1, 1, 1, 2, 2, 3]);
            exchanges.extend((0..said).map(|_| exchange(dice, &stretch, server)));
        }
        let mut truth = Truth { pieces: pieces(dice, &stretch, drift), base: 0 };
        truth.base = base(dice, &truth, &exchanges);
        let all = characters(dice, servers, lying);
        let mut steps: Vec<Step> = exchanges
            .iter()
            .map(|exchange| taken(dice, exchange, all[exchange.server], &truth))
            .collect();
        let asks = 2 + dice.below(5);
        steps.extend((0..asks).map(|_| asked(dice, &stretch, servers, lying)));
        steps.sort_by_key(Step::moment);
        disorder(dice, &mut steps);
        Course { drift, truth, steps }
    }
}

/// Where the true time begins, for it to be a whole second when one of the servers looks at it, or
/// as little as can be before or after. It is not before 1970.
fn base(dice: &mut Dice, truth: &Truth, exchanges: &[Exchange]) -> i128 {
    let beside = dice.pick(&[0, 0, 0, 1, -1, FINE, -FINE, SECOND / 2]);
    let pinned = if exchanges.is_empty() { 0 } else { dice.below(exchanges.len() as u64) };
    let passed = exchanges.get(pinned as usize).map_or(0, |one| truth.passed(one.looked));
    let at = i128::from(second(dice)) * SECOND + beside;
    // What passes before that second is not to begin before 1970: then whole seconds are added.
    let below = (passed - at).max(0);
    at - passed + (below + SECOND - 1) / SECOND * SECOND
}

/// What is taken of an exchange. The client rounds when it was sent down, and when it was received
/// up.
fn taken(dice: &mut Dice, exchange: &Exchange, character: Character, truth: &Truth) -> Step {
    let (low, high) = window(dice, character, truth.at(exchange.looked));
    // A clock ends with its last microsecond.
    let micros = |nanos: u128| u64::try_from(nanos / MICRO).unwrap_or(u64::MAX);
    let heard = Heard {
        low,
        high,
        maxt: maxt(dice, high),
        sent: micros(exchange.sent),
        received: micros(exchange.received + MICRO - 1),
    };
    Step::Take(exchange.server as u64, heard)
}

/// A question, mostly with as many liars as there may be.
fn asked(dice: &mut Dice, stretch: &Stretch, servers: usize, lying: usize) -> Step {
    let within = [0; 3].map(|_| (stretch.moment(dice) / MICRO) as u64);
    let late = within.into_iter().max().expect("there are three");
    let later = dice.number();
    let moment = match dice.below(8) {
        0 => within[0],
        1 => late.saturating_add(later),
        2..=4 => ((stretch.start + stretch.length) / MICRO) as u64,
        _ => late,
    };
    let (advised, lying) = ((servers as u64 - 1) / 2, lying as u64);
    let (few, any) = (dice.below(9), dice.number());
    let liars =
        dice.pick(&[advised, advised, advised, lying, lying, lying, lying + 1, 0, few, any]);
    Step::Ask(moment, liars)
}

/// Swaps a few steps, as where several threads hear servers, and puts in a few that are refused.
fn disorder(dice: &mut Dice, steps: &mut Vec<Step>) {
    for place in 1..steps.len() {
        if dice.once_in(12) {
            steps.swap(place - 1, place);
        }
    }
    if dice.once_in(4) {
        let place = dice.below(steps.len() as u64) as usize;
        let (any, beyond) = (dice.number(), dice.pick(&[8, 9, 15, 16, 1 << 32, u64::MAX]));
        let wrong = match steps[place] {
            Step::Take(_, heard) if dice.once_in(2) => Step::Take(beyond, heard),
            Step::Take(server, heard) => {
                Step::Take(server, Heard { sent: heard.received, received: heard.sent, ..heard })
            }
            Step::Ask(moment, liars) => {
                Step::Ask(dice.pick(&[moment.saturating_sub(1), 0, any]), liars)
            }
        };
        steps.insert(place + 1, wrong);
    }
}

/// What is known of a question by who knows the true time.
#[derive(Clone, Copy, Debug, PartialEq, Eq)]
pub struct Known {
    /// How many servers are counted, and how many of these lie: something that is used of theirs is
    /// not true.
    pub counted: usize,
    /// Those of them that lie.
    pub lying: usize,
    /// Whether more are counted than may lie, and no more lie than may: then there is a time, and it
    /// is right.
    pub sound: bool,
}

impl Course {
    /// What must be so of an answer, where no more lie than may: there is one, where more are
    /// counted than may lie; the true time is in it, unless it stopped; and every suspect lies.
    /// Where less than half may lie, each end that was agreed on lies in an honest server's span.
    pub fn judge(
        &self,
        clock: &Clock,
        moment: u64,
        liars: u64,
        answer: &Result<Time, Refusal>,
    ) -> Result<Known, &'static str> {
        let usable = clock.usable(moment);
        let lies = |said: &[Heard]| !said.iter().all(|heard| self.truth.is_true(heard));
        let lying: Vec<usize> =
            usable.iter().filter(|(_, said)| lies(said)).map(|(server, _)| *server).collect();
        let counted = usable.len();
        let may = lying.len() as u64 <= liars && liars < counted as u64;
        let known = |sound| Known { counted, lying: lying.len(), sound };
        if !may || *answer == Err(Refusal::Clock) {
            return Ok(known(false));
        }
        let Ok(time) = answer else { return Err("no more lie than may, and it is refused") };
        let now = self.truth.at_micro(moment);
        let [low, high] = [time.low, time.high].map(|end| i128::from(end) * FINE);
        if now < low || now > high && !time.stopped {
            return Err("no more lie than may, and it is another time");
        }
        if !time.suspects.iter().all(|suspect| lying.contains(suspect)) {
            return Err("no more lie than may, and a suspect is honest");
        }
        if 2 * liars < counted as u64 && !self.by_the_honest(clock, moment, liars, &lying) {
            return Err("less than half may lie, and an end is in no honest span");
        }
        Ok(known(true))
    }

    /// Whether each end that was agreed on lies in the span of a server that does not lie.
    fn by_the_honest(&self, clock: &Clock, moment: u64, liars: u64, lying: &[usize]) -> bool {
        let Ok(Agreed { counted, span, .. }) = clock.agreed(moment, liars) else { return false };
        [span.from, span.to].iter().all(|end| {
            let honest = counted.iter().filter(|(server, _)| !lying.contains(server));
            honest.map(|(_, own)| own).any(|own| own.from <= *end && *end <= own.to)
        })
    }
}

#[cfg(test)]
mod tests {
    use super::*;

    fn plain(rate: i128, base: i128) -> Truth {
        Truth { pieces: vec![(0, rate)], base }
    }

    #[test]
    fn the_true_time_goes_as_its_pieces_say() {
        let truth = Truth { pieces: vec![(10, 1), (20, 1_000_000), (30, 3)], base: 100 };
        let at = [10, 11, 20, 21, 30, 32].map(|nanos| truth.at(nanos));
        assert_eq!(at, [100, 101, 110, 1_000_110, 10_000_110, 10_000_116]);
    }

    #[test]
    fn a_window_is_true_where_it_was_that_time_once() {
        // A second of the client's clock is one in truth, and begins with second 1000.
        let truth = plain(NANO, 1000 * SECOND);
        let is_true = |low, high, sent, received| {
            truth.is_true(&Heard { low, high, maxt: 0, sent, received })
        };
        assert!(is_true(1000, 1000, 0, 0) && is_true(1000, 1001, 7, 7));
        assert!(!is_true(1000, 1000, 1, 1) && is_true(1000, 1000, 0, 5_000_000));
        assert!(is_true(1001, 1001, 0, 1_000_000) && !is_true(1001, 1001, 0, 999_999));
        assert!(!is_true(1001, 1000, 0, 2_000_000));
    }

    /// The clock of this package, over courses of its own.
    #[test]
    fn the_true_time_is_always_inside() {
        let mut dice = Dice::new(0x5eed_3602);
        let (mut sound, mut lied) = (0, 0);
        for number in 0..30_000 {
            let course = Course::draw(&mut dice);
            let mut clock = Clock::start(course.drift).unwrap();
            for step in &course.steps {
                let (moment, liars) = match *step {
                    Step::Take(server, heard) => {
                        let _ = clock.take(server, heard);
                        continue;
                    }
                    Step::Ask(moment, liars) => (moment, liars),
                };
                let answer = clock.now(moment, liars);
                let known = course.judge(&clock, moment, liars, &answer);
                let known = known.unwrap_or_else(|why| panic!("{number}: {why}: {course:?}"));
                sound += usize::from(known.sound);
                lied += usize::from(known.sound && known.lying > 0);
            }
        }
        println!("{sound} times are right, {lied} of them though some server lied");
        assert!(sound >= 40_000 && lied >= 10_000);
    }
}
