//! Piles that grow at their end, record by record: a report stays a report, the pair that it names
//! gets no further apart and the run that is cut no longer; and where a run was cut, one no longer
//! is cut after any record at all. At every step ours is held to what is known of the pile from how
//! it was made, and of the whole pile the independent side is asked as well.

mod support;

use independent::making::Made;
use independent::pile::{MOST_RECORDS, RECORD};
use independent::{pairs, report};
use support::piles::{self, Truth, Wish, BROKEN};
use support::{counted, Xorshift};

/// How many reports are grown, and how many piles to which any records are added.
const REPORTS: usize = 20_000;
const PILES: usize = 10_000;

const COUNTED: &str = "piles that grow record by record";

/// What is said of a pile at one step.
#[derive(Clone, Copy)]
struct Step {
    /// How far the pair lies apart that the report names, where it is one.
    pair: Option<usize>,
    /// How many records the run has after its first, where one is cut.
    run: Option<usize>,
}

/// What is known of the first `records` records.
fn first(truth: &Truth, records: usize) -> Truth {
    Truth {
        verdicts: truth.verdicts[..records].to_vec(),
        linked: truth.linked[..records].to_vec(),
        ..*truth
    }
}

/// What ours says of the first `records` records, which must be what is due.
fn step(Made { pile, answers }: &Made, truth: &Truth, records: usize) -> Step {
    let (pile, answers) = (&pile[..records * RECORD], &answers[..2 * records]);
    let truth = first(truth, records);
    let pair = trawlbeacon::check_report(pile, answers).ok();
    let pair = pair.map(|pair| (pair.first, pair.second));
    assert_eq!(pair, truth.report().ok());
    let run = trawlbeacon::cut(pile, answers).ok().map(|cut| (cut.run.first, cut.run.last));
    assert_eq!(run, truth.run());
    assert!(run.is_none() || truth.contradiction());
    Step { pair: pair.map(|(i, j)| j - i), run: run.map(|(i, j)| j - i) }
}

/// What the independent side says of the whole pile, and whether two of its records contradict each
/// other.
fn whole(Made { pile, answers }: &Made, truth: &Truth) {
    assert_eq!(report::check(pile, answers).ok(), truth.report().ok());
    assert_eq!(report::run(pile, answers).ok(), truth.run());
    let due = if truth.contradiction() { Ok(()) } else { Err(18) };
    let told = trawlbeacon::pile_contradicts(pile, answers).map_err(|refusal| refusal.code());
    assert_eq!(told, due);
    assert_eq!(pairs::in_pile(pile, answers).map_err(|refusal| refusal.code()), due);
}

/// Windows of which two contradict each other sooner or later.
fn good(random: &mut Xorshift) -> Vec<Wish> {
    let count = 3 + random.below(MOST_RECORDS - 2);
    let (rich, falling) = (random.once_in(16), random.once_in(2));
    let mut window = |place: usize| {
        let (step, any) = (place as u64, random.below(30) as u32);
        if falling {
            // The radii fall too, so that later pairs are closer together.
            (10_000 - 10 * step, 90 - 5 * place as u32 + any / 3)
        } else {
            (1_000 + random.below(60) as u64, 8 + any)
        }
    };
    let windows: Vec<(u64, u32)> = (0..count).map(&mut window).collect();
    windows.into_iter().map(|window| Wish { rich, ..Wish::good(window) }).collect()
}

/// What was seen of growing piles.
#[derive(Default)]
struct Seen {
    piles: usize,
    /// How often a record was added.
    steps: usize,
    /// How often the pair got closer, and the run shorter.
    closer: usize,
    shorter: usize,
    /// How often a pile that was a report was none any more.
    lost: usize,
}

impl Seen {
    /// Grows a pile record by record, from the first records of it that have a run on. Where there
    /// is none, or only the whole has one, it does not count.
    fn grow(&mut self, made: &Made, truth: &Truth, joined: bool) {
        let most = truth.verdicts.len();
        let Some(start) = (1..most).find(|records| first(truth, *records).run().is_some()) else {
            return;
        };
        whole(made, truth);
        let mut before = step(made, truth, start);
        for records in start + 1..=most {
            let after = step(made, truth, records);
            self.hold(before, after, joined);
            before = after;
        }
        self.steps += most - start;
        self.piles += 1;
    }

    /// What holds of two steps, where the record between them was valid and linked, or any.
    fn hold(&mut self, before: Step, after: Step, joined: bool) {
        if let Some(run) = before.run {
            let now = after.run.expect("where a run was cut, one is cut with more records");
            assert!(now <= run, "the run got longer");
            self.shorter += usize::from(now < run);
        }
        match (before.pair, after.pair) {
            (Some(pair), Some(now)) => {
                assert!(now <= pair, "the pair got further apart");
                self.closer += usize::from(now < pair);
            }
            (Some(_), None) => {
                assert!(!joined, "a report is accepted with one valid, linked record more");
                self.lost += 1;
            }
            (None, _) => (),
        }
    }
}

#[test]
fn a_report_that_grows_is_accepted() {
    let mut random = Xorshift::new(0x5eed_1403);
    let mut seen = Seen::default();
    while seen.piles < REPORTS {
        let wishes = good(&mut random);
        let (made, truth) = piles::build(&mut random, &wishes, true);
        seen.grow(&made, &truth, true);
    }
    println!(
        "{} reports grown by {} valid, linked records one by one: all accepted; the pair got \
         closer {} times, and the run shorter {} times",
        seen.piles, seen.steps, seen.closer, seen.shorter
    );
    assert!(seen.steps >= 80_000 && seen.closer >= 4_000 && seen.shorter >= 4_000);
    assert_eq!(seen.lost, 0);
    counted(seen.piles, COUNTED);
}

/// Records that are bad or not linked are added too, and a first rand is not always zero, so that
/// few of these piles are reports.
#[test]
fn nobody_gets_off_by_adding_a_record() {
    let mut random = Xorshift::new(0x5eed_1404);
    let mut seen = Seen::default();
    while seen.piles < PILES {
        let mut wishes = good(&mut random);
        let seldom = random.pick(&[4, 8, 16]);
        for wish in &mut wishes {
            if random.once_in(seldom) {
                wish.spoil(&mut random);
            }
            if random.once_in(seldom) {
                wish.tie = random.pick(&BROKEN);
            }
        }
        let zero = random.once_in(2);
        let (made, truth) = piles::build(&mut random, &wishes, zero);
        seen.grow(&made, &truth, false);
    }
    println!(
        "{} piles with a run grown by {} records of any kind one by one: none got off; the run got \
         shorter {} times, and {} reports were none any more",
        seen.piles, seen.steps, seen.shorter, seen.lost
    );
    assert!(seen.steps >= 40_000 && seen.shorter >= 500 && seen.lost >= 500);
    counted(seen.piles, COUNTED);
}
