//! Windows judged as they come by the proved library, which keeps one number of those before, and
//! by the independent implementation, which tries every pair: each answer must be the same.

mod support;

use independent::pairs;
use independent::report::{self, Time};
use std::collections::BTreeMap;
use support::packets::{number, radius};
use support::{counted, Xorshift};
use trawlbeacon::{raw, Tally};

/// The most windows of a list.
const MOST: usize = 40;

/// So close together that some contradict each other and most do not.
fn close(random: &mut Xorshift) -> Time {
    (1_000 + random.below(60) as u64, random.below(40) as u32)
}

/// At both ends of time, with radii at theirs: MIDP - RADI is often below 0, and MIDP + RADI above
/// 2^64 - 1.
fn at_the_ends(random: &mut Xorshift) -> Time {
    let (little, largest) = (random.below(12) as u64, u64::from(u32::MAX));
    let midps = [little, largest - little, largest + little, u64::MAX - little, 1 << 63];
    let least = u64::MAX - largest;
    let more = [least - little, least + little, u64::MAX - 2 * largest, number(random)];
    let midp = if random.once_in(2) { random.pick(&midps) } else { random.pick(&more) };
    let radii = [0, 1, little as u32, u32::MAX - little as u32, u32::MAX, radius(random)];
    (midp, random.pick(&radii))
}

/// Anything at all.
fn any(random: &mut Xorshift) -> Time {
    (number(random), radius(random))
}

/// Any of up to 40 windows of one kind.
fn drawn(random: &mut Xorshift, window: fn(&mut Xorshift) -> Time) -> Vec<Time> {
    (0..random.below(MOST + 1)).map(|_| window(random)).collect()
}

fn all_close(random: &mut Xorshift) -> Vec<Time> {
    drawn(random, close)
}

fn all_at_the_ends(random: &mut Xorshift) -> Vec<Time> {
    drawn(random, at_the_ends)
}

fn all_any(random: &mut Xorshift) -> Vec<Time> {
    drawn(random, any)
}

/// Times that rise with radii so wide that hardly any two contradict each other, but perhaps the
/// last and one before it, by as little as can be.
fn just(random: &mut Xorshift) -> Vec<Time> {
    let mut told: Vec<Time> = Vec::new();
    for step in 0..random.below(MOST) {
        told.push((5_000 + 10 * step as u64, random.below(400) as u32));
    }
    if let Some(most) = told.iter().map(|(midp, radi)| midp - u64::from(*radi)).max() {
        let radi = random.below(400) as u32;
        told.push((most - u64::from(radi) - random.pick(&[0, 1, 2]), radi));
    }
    told
}

/// Below the largest MIDP, but not below the largest MIDP - RADI: what keeps the wrong one is wrong.
fn wide_first(random: &mut Xorshift) -> Vec<Time> {
    let mut told = drawn(random, close);
    for (midp, radi) in &mut told {
        if random.once_in(3) {
            (*midp, *radi) = (*midp + 40, *radi + 60);
        }
    }
    told
}

type Group = (&'static str, usize, fn(&mut Xorshift) -> Vec<Time>);

const GROUPS: [Group; 5] = [
    ("of windows close together", 250_000, all_close),
    ("of windows at the ends of time", 250_000, all_at_the_ends),
    ("of any windows", 100_000, all_any),
    ("whose last window just contradicts one, or just does not", 300_000, just),
    ("with a larger MIDP that has a larger radius", 100_000, wide_first),
];

/// How often no two of a list contradicted each other, and some two did; and of windows, how often
/// no earlier one contradicted it, and one did.
#[derive(Default)]
struct Seen {
    lists: [usize; 2],
    windows: [usize; 2],
    by_length: BTreeMap<usize, usize>,
}

/// Takes the windows one by one, and holds each answer, the whole and the state to what the every
/// pair says.
fn compare(told: &[Time], seen: &mut Seen) {
    let mut tally = Tally::new();
    let mut contradiction = false;
    for (place, (midp, radi)) in told.iter().enumerate() {
        let due = pairs::an_earlier(&told[..place], told[place]);
        assert_eq!(tally.take(*midp, *radi), due, "window {place} of {told:?}");
        seen.windows[usize::from(due)] += 1;
        contradiction |= due;
    }
    assert_eq!(contradiction, pairs::any(told), "{told:?}");
    seen.lists[usize::from(contradiction)] += 1;
    *seen.by_length.entry(told.len()).or_default() += 1;
}

#[test]
fn both_sides_say_the_same_of_lists_of_windows() {
    let mut random = Xorshift::new(0x5eed_1401);
    let mut seen = Seen::default();
    for (name, count, group) in GROUPS {
        for _ in 0..count {
            compare(&group(&mut random), &mut seen);
        }
        println!("{count:>8} lists: {name}");
    }
    let [quiet, contradicting] = seen.lists;
    println!(
        "{} lists of 0 to {MOST} windows in all, the one pass compared with every pair: in \
         {contradicting} some two contradicted each other, in {quiet} none;",
        quiet + contradicting
    );
    let [without, with] = seen.windows;
    println!("{with} windows were contradicted by one before, and {without} were not");
    assert_eq!(quiet + contradicting, 1_000_000);
    assert!(quiet.min(contradicting) >= 150_000 && without.min(with) >= 1_000_000);
    assert!((0..=MOST).all(|length| seen.by_length[&length] >= 5_000));
    counted(quiet + contradicting, "lists of windows");
}

/// Any state at all is that of some windows, of which one with that MIDP and no radius will do.
#[test]
fn any_state_does_no_harm() {
    let mut random = Xorshift::new(0x5eed_1402);
    for _ in 0..200_000 {
        let state = number(&mut random);
        let (midp, radi) = at_the_ends(&mut random);
        let mut most = state;
        // SAFETY: the state is this function's own.
        let told = unsafe { raw::tb_tally_take_field(&mut most, midp, radi) };
        assert_eq!(told, report::contradicts((state, 0), (midp, radi)), "{state}, {midp}±{radi}");
        let low = u64::try_from(i128::from(midp) - i128::from(radi)).unwrap_or(0);
        assert_eq!(most, state.max(low), "{state}, {midp}±{radi}");
    }
    println!("200000 states that no start led to");
}
