//! Stamps of the 2021 draft turned into windows by the proved library and by the independent
//! implementation, which works in whole numbers of 128 bits: both ends or the code must be the same.

mod support;

use independent::stamp;
use support::answers::{Both, Said};
use support::tally::Tally;
use support::{counted, Xorshift};
use trawlbeacon::raw;

const STAMPS: &str = "stamps";

const COUNTED: &str = "old stamps, each with a radius";

const SECOND: u64 = 1_000_000;
const DAY: u64 = 86_400 * SECOND;
/// Where the microseconds of a day end, with a leap second.
const LIMIT: u64 = DAY + SECOND;
/// The last of the microseconds that five bytes can count.
const FIVE_BYTES: u64 = (1 << 40) - 1;

const DAY_ZERO: u64 = 40_587;
const LAST_DATE: u64 = (1 << 24) - 1;

/// The radii that every stamp is tried with.
const RADII: [u32; 5] = [0, 1, 999_999, 1_000_000, u32::MAX];

/// Both sides of each date at which the answer changes.
const DATES: [u64; 10] =
    [0, 1, DAY_ZERO - 1, DAY_ZERO, DAY_ZERO + 1, 59_354, 65_535, 65_536, LAST_DATE - 1, LAST_DATE];

#[derive(Clone, Copy, PartialEq)]
struct Ends {
    low: i128,
    high: i128,
}

impl Said for Ends {
    fn say(&self) -> String {
        format!("from {} to {}", self.low, self.high)
    }
}

/// The ends on both sides.
fn ask(midp: u64, radi: u32) -> Both<Result<Ends, u32>> {
    Both {
        ours: trawlbeacon::old_window(midp, radi)
            .map(|old| Ends { low: i128::from(old.low), high: i128::from(old.high) })
            .map_err(trawlbeacon::Refusal::code),
        independent: stamp::ends(midp, radi)
            .map(|ends| Ends { low: ends.low, high: ends.high })
            .map_err(independent::refusal::Refusal::code),
    }
}

struct Comparison {
    tally: Tally,
    /// How many windows stopped at 0, and how many stamps stood in a leap second.
    stopped: usize,
    leaps: usize,
}

impl Comparison {
    fn new() -> Self {
        Comparison { tally: Tally::new(&[STAMPS]), stopped: 0, leaps: 0 }
    }

    fn ask(&mut self, date: u64, micros: u64, radi: u32) {
        let midp = date << 40 | micros;
        let both = ask(midp, radi);
        let refused = date < DAY_ZERO || micros >= LIMIT;
        let due = if refused { 29 } else { 0 };
        let show = || format!("date {date}, {micros} microseconds, radius {radi}");
        self.tally.answer(STAMPS, &both, Some(due), show);
        match both.ours {
            Ok(ends) => {
                self.leaps += usize::from(micros > DAY);
                self.stopped += usize::from(ends.low == 0);
            }
            // SAFETY: no pointer is passed.
            Err(code) => {
                let told = unsafe { raw::tb_old_window(midp, radi) };
                if told != (raw::tb_old { code, low: 0, high: 0 }) {
                    self.tally.differs(format!("tb_old_window told {told:?} of {}", show()));
                }
            }
        }
    }

    /// The same with each of the named radii, and one more.
    fn with_radii(&mut self, date: u64, micros: u64, more: u32) {
        for radi in RADII.into_iter().chain([more]) {
            self.ask(date, micros, radi);
        }
    }

    fn say(&self, what: &str) {
        println!(
            "{what}, ours compared with independent; how often each code was given:\n{}\
             {} low ends are 0, and {} stamps stand in a leap second",
            self.tally.table("code"),
            self.stopped,
            self.leaps
        );
    }
}

/// A million stamps, most of them good: any day and time, days near 1970 with low ends that stop,
/// leap seconds, and any eight bytes at all. Each with the named radii and a random one.
#[test]
fn a_million_stamps() {
    let mut seen = Comparison::new();
    let mut random = Xorshift::new(0x5eed_1201);
    for i in 0..1_000_000 {
        let any = random.next();
        let date = DAY_ZERO + random.next() % (LAST_DATE - DAY_ZERO + 1);
        let (date, micros) = match i % 8 {
            0 => (any >> 40, any & FIVE_BYTES),
            1 => (any >> 40, any % LIMIT),
            2 => (DAY_ZERO + any % 2, random.next() % (u64::from(u32::MAX) + 1)),
            3 => (date, DAY + any % SECOND),
            4 => (date, any % 86_401 * SECOND),
            _ => (date, any % LIMIT),
        };
        let radi = random.next() as u32;
        seen.with_radii(date, micros, radi);
    }
    seen.say("1,000,000 stamps with six radii each");
    seen.tally.no_difference();
    seen.tally.at_least(100_000, STAMPS, [0, 29]);
    assert!(seen.stopped >= 10_000 && seen.leaps >= 100_000);
    assert_eq!(seen.tally.answers(), 6_000_000);
    counted(seen.tally.answers(), COUNTED);
}

/// Both sides of each border: of the date, of each second at the ends of the day, of the leap second
/// and of what five bytes can count; and around each, every radius that brings an end to a border.
#[test]
fn every_border() {
    let mut seen = Comparison::new();
    let borders = [0, SECOND, 2 * SECOND, DAY - SECOND, DAY, LIMIT, LIMIT + SECOND, FIVE_BYTES - 2];
    let times: Vec<u64> = borders
        .iter()
        .flat_map(|border| (border.saturating_sub(3)..=border + 2).chain([border + SECOND / 2]))
        .filter(|micros| *micros <= FIVE_BYTES)
        .collect();
    let radii: Vec<u32> = [0, SECOND / 2, SECOND, 2 * SECOND, 1 << 31, u64::from(u32::MAX) - 2]
        .iter()
        .flat_map(|border| border.saturating_sub(3)..=border + 2)
        .map(|radi| u32::try_from(radi).expect("none is above the largest"))
        .collect();
    for date in DATES {
        for micros in &times {
            for radi in radii.iter().chain(&RADII) {
                seen.ask(date, *micros, *radi);
            }
        }
    }
    seen.say("every border");
    seen.tally.no_difference();
    seen.tally.at_least(1_000, STAMPS, [0, 29]);
    counted(seen.tally.answers(), COUNTED);
}

/// What the request says of some stamps, in numbers that were worked out by hand.
#[test]
fn by_hand() {
    let most = (LAST_DATE - DAY_ZERO) * 86_400;
    for (date, micros, radi, due) in [
        (DAY_ZERO, 0, 0, Ok((0, 0))),
        (DAY_ZERO, 1, 0, Ok((0, 1))),
        (DAY_ZERO, 999_999, 1, Ok((0, 1))),
        (DAY_ZERO, 1_000_000, 1, Ok((0, 2))),
        (DAY_ZERO, 1_000_000, 1_000_001, Ok((0, 3))),
        (DAY_ZERO + 1, 0, 1, Ok((86_399, 86_401))),
        (DAY_ZERO, 86_399_999_999, 0, Ok((86_399, 86_400))),
        (DAY_ZERO, 86_400_000_000, 0, Ok((86_400, 86_400))),
        (DAY_ZERO, 86_400_999_999, 0, Ok((86_400, 86_400))),
        (DAY_ZERO, 86_400_500_000, 500_000, Ok((86_399, 86_401))),
        (DAY_ZERO, 86_401_000_000, 0, Err(29)),
        (DAY_ZERO - 1, 86_400_000_000, u32::MAX, Err(29)),
        (LAST_DATE, 0, 0, Ok((most, most))),
        (LAST_DATE, 86_400_999_999, u32::MAX, Ok((most + 86_400 - 4_295, most + 86_400 + 4_295))),
        (LAST_DATE, FIVE_BYTES, u32::MAX, Err(29)),
    ] {
        let told = trawlbeacon::old_window(date << 40 | micros, radi);
        let told = told.map(|old| (old.low, old.high)).map_err(trawlbeacon::Refusal::code);
        assert_eq!(told, due, "date {date}, {micros} microseconds, radius {radi}");
    }
}
