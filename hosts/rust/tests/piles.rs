//! Piles judged, checked as reports and cut by the proved library and by the independent
//! implementation: every code, window, place and byte must be the same.
//!
//! Most piles are made so that it is known what must be said of them, and then both sides are held
//! to it as well.

mod support;

use independent::making::{self, pile_of, Made};
use independent::pile::{MOST_RECORDS, RECORD};
use independent::report;
use support::answers::{Answer, Bad, Both, Written};
use support::due::{pattern, Due};
use support::packets::{number, radius, versions_near};
use support::pile_answers::{Asked, Reported};
use support::piles::{self, Tie, Wish, BROKEN};
use support::tally::Tally;
use support::{counted, hex, Xorshift};
use trawlbeacon::{Run, Window};

const PILES: &str = "piles";
const RECORDS: &str = "records";
const CONTRADICTIONS: &str = "contradictions";
const REPORTS: &str = "reports";
const CUTS: &str = "cuts";
const RUNS: &str = "runs";

type Subject = (Made, Due);

struct Comparison {
    tally: Tally,
    /// How often a run of each length was cut.
    runs: Tally,
    random: Xorshift,
    group: &'static str,
    piles: usize,
    /// How often a record was not linked and was, and two windows did not contradict each other and
    /// did.
    links: [usize; 2],
    contradictions: [usize; 2],
    /// Piles whose first rand was not zero, and was.
    first_rands: [usize; 2],
}

impl Comparison {
    fn new() -> Self {
        Comparison {
            tally: Tally::new(&[PILES, RECORDS, CONTRADICTIONS, REPORTS, CUTS]),
            runs: Tally::new(&[RUNS]),
            random: Xorshift::new(0x5eed_0501),
            group: "",
            piles: 0,
            links: [0; 2],
            contradictions: [0; 2],
            first_rands: [0; 2],
        }
    }

    /// The inputs are the same in every run, so that the number of a pile is enough to find it
    /// again.
    fn namer<'a>(&self, asked: Asked<'a>) -> impl Fn() -> String + 'a {
        let (group, number) = (self.group, self.piles);
        move || {
            format!(
                "pile {number} ({group}), {} bytes, answers {}",
                asked.pile.len(),
                hex(asked.answers)
            )
        }
    }

    /// Both sides must say the same, and what is due where that is known.
    fn same<T: Answer>(&mut self, column: &str, asked: Asked, both: &Both<T>, due: Option<T>) {
        let name = self.namer(asked);
        self.tally.answer(column, both, due.as_ref().map(Answer::code), &name);
        if let Some(due) = due.filter(|due| *due != both.ours && due.code() == both.ours.code()) {
            self.tally.differs(format!(
                "{column}: {}\n  ours {}\n  due  {}",
                name(),
                both.ours.show(),
                due.show()
            ));
        }
    }

    /// The same for a yes or no.
    fn same_bool(&mut self, what: &str, asked: Asked, both: Both<bool>, due: Option<bool>) -> bool {
        let Both { ours, independent } = both;
        if ours != independent || due.map_or(false, |due| due != ours) {
            let name = self.namer(asked)();
            self.tally.differs(format!(
                "{what}: {name}: ours {ours}, independent {independent}, due {due:?}"
            ));
        }
        ours
    }

    /// Asks all there is to ask about a pile, which starts anywhere.
    fn ask(&mut self, (Made { pile, answers }, due): Subject) {
        let start = self.random.below(16);
        let shifted = [vec![0; start], pile].concat();
        let asked = Asked { pile: &shifted[start..], answers: &answers };
        self.same(PILES, asked, &asked.code(), due.code());
        self.ask_records(asked, &due);
        self.ask_links(asked, &due);
        self.same(CONTRADICTIONS, asked, &asked.contradiction(), due.contradiction());
        let both = asked.report();
        let at = both.independent.0.err().and_then(|(_, _, at)| at);
        self.same(REPORTS, asked, &both, due.report(at));
        self.ask_cuts(asked, &due);
        if self.random.once_in(4) {
            self.ask_unseen(asked);
        }
        self.piles += 1;
    }

    fn ask_records(&mut self, asked: Asked, due: &Due) {
        let judged = asked.judged();
        let count = asked.pile.len() / RECORD;
        let mut windows = Vec::new();
        for place in 0..=count {
            let both = asked.judge(place, &judged);
            windows.extend(both.ours.ok().map(|checked| checked.window));
            let at = both.independent.err().and_then(|bad| bad.at);
            self.same(RECORDS, asked, &both, due.verdict(place, at));
        }
        for (i, earlier) in windows.iter().enumerate() {
            for later in &windows[i..] {
                self.ask_pair(asked, earlier, later);
                self.ask_pair(asked, later, earlier);
            }
        }
    }

    fn ask_pair(&mut self, asked: Asked, earlier: &Window, later: &Window) {
        let times = [earlier, later].map(|window| (window.midp, window.radi));
        let both = Both {
            ours: trawlbeacon::contradicts(times[0], times[1]),
            independent: report::contradicts(times[0], times[1]),
        };
        let due = piles::contradicts(earlier, later);
        let told = self.same_bool("contradicts", asked, both, Some(due));
        self.contradictions[usize::from(told)] += 1;
    }

    fn ask_links(&mut self, asked: Asked, due: &Due) {
        let whole = asked.pile.len() % RECORD == 0
            && (1..=MOST_RECORDS).contains(&(asked.pile.len() / RECORD));
        for place in 0..=asked.pile.len() / RECORD + 1 {
            let due = match due {
                Due::Known(truth) => Some(truth.linked.get(place).copied().unwrap_or(false)),
                _ => (!whole).then_some(false),
            };
            let told = self.same_bool("linked", asked, asked.linked(place), due);
            self.links[usize::from(told)] += 1;
        }
        let due = match due {
            Due::Known(truth) => Some(truth.first_rand_zero),
            _ => (!whole).then_some(false),
        };
        let told = self.same_bool("first_rand_zero", asked, asked.first_rand_zero(), due);
        self.first_rands[usize::from(told)] += 1;
    }

    /// Cuts into a buffer that is too short, by one byte or by more, and into one that is as long
    /// as the pile or longer.
    fn ask_cuts(&mut self, asked: Asked, due: &Due) {
        let length = asked.pile.len();
        let (any, more) = (self.random.below(length + 1), self.random.below(5_000));
        let short =
            self.random.pick(&[length.saturating_sub(1), any.min(length.saturating_sub(1)), 0]);
        let enough = length + self.random.pick(&[0, 1, more]);
        for room in [short, enough] {
            let before = pattern(&mut self.random, room);
            let both = asked.cut(&before);
            self.same(CUTS, asked, &both, due.cut(asked.pile, &before));
            if let Ok(Run { first, last }) = both.ours.answer {
                self.runs.count(RUNS, (last + 1 - first) as u32);
                self.ask_evidence(asked, &both.ours.buffer, first, last);
            }
            if room >= length {
                self.ask_own_cut(asked, &both.ours);
            }
        }
    }

    /// What is cut without a lent buffer is what stands in front in one that is long enough.
    fn ask_own_cut(&mut self, asked: Asked, lent: &Written<Run>) {
        let own = trawlbeacon::cut(asked.pile, asked.answers);
        let own = own.map(|cut| (cut.run, cut.bytes)).map_err(Bad::from);
        let due = lent.answer.map(|run| (run, lent.buffer[..run.records() * RECORD].to_vec()));
        if own != due {
            let (own, due) = (own.map(|cut| cut.0), due.map(|cut| cut.0));
            let name = self.namer(asked)();
            self.tally
                .differs(format!("cut of {name}: {own:?} instead of {due:?}, or other bytes"));
        }
    }

    fn ask_unseen(&mut self, asked: Asked) {
        let length = asked.pile.len();
        let room = self.random.pick(&[length, length / 2]);
        let place = self.random.below(MOST_RECORDS + 2);
        if let Some(wrong) = asked.unseen_fields(place, &mut vec![0; room]) {
            self.tally.differs(format!("{wrong}\n  for {}", self.namer(asked)()));
        }
    }

    /// What was cut stands by itself: with the answers about its records it is a report, for its
    /// first and its last record.
    fn ask_evidence(&mut self, asked: Asked, buffer: &[u8], first: usize, last: usize) {
        let run = &buffer[..(last + 1 - first) * RECORD];
        let alone = Asked { pile: run, answers: &asked.answers[2 * first..2 * last + 2] };
        let due = Reported(Ok((0, last - first)));
        let both = alone.report();
        if (both.ours, both.independent) != (due, due) {
            let (ours, independent) = (both.ours.show(), both.independent.show());
            self.tally.differs(format!(
                "the run of {}: ours {ours}, independent {independent}",
                self.namer(asked)()
            ));
        }
    }
}

/// A window, so close to others of its kind that some contradict each other and most do not.
fn close(random: &mut Xorshift) -> (u64, u32) {
    (1_000 + random.below(60) as u64, 1 + random.below(29) as u32)
}

fn wishes(random: &mut Xorshift, rich: bool, window: fn(&mut Xorshift) -> (u64, u32)) -> Vec<Wish> {
    let count = 1 + random.below(MOST_RECORDS);
    (0..count).map(|_| Wish { rich, ..Wish::good(window(random)) }).collect()
}

/// The pile of these wishes. Now and then the first rand is not zero.
fn subject(random: &mut Xorshift, wishes: &[Wish]) -> Subject {
    let first_rand_zero = !random.once_in(8);
    let (made, truth) = piles::build(random, wishes, first_rand_zero);
    (made, Due::Known(truth))
}

/// All valid and linked, in every shape.
fn valid(random: &mut Xorshift) -> Subject {
    let wishes = wishes(random, true, close);
    subject(random, &wishes)
}

/// One record or two that have one fault each.
fn one_fault(random: &mut Xorshift) -> Subject {
    let mut wishes = wishes(random, true, close);
    for _ in 0..1 + random.below(2) {
        let at = random.below(wishes.len());
        wishes[at].spoil(random);
    }
    subject(random, &wishes)
}

/// Several faults in a record, of which the first counts.
fn several_faults(random: &mut Xorshift) -> Subject {
    let mut wishes = wishes(random, true, close);
    for wish in &mut wishes {
        if random.once_in(3) {
            (0..2 + random.below(3)).for_each(|_| wish.spoil(random));
        }
    }
    subject(random, &wishes)
}

/// Links broken in every way, in piles of valid records.
fn broken_links(random: &mut Xorshift) -> Subject {
    let mut wishes = wishes(random, true, close);
    for _ in 0..1 + random.below(3) {
        let at = random.below(wishes.len());
        wishes[at].tie = random.pick(&BROKEN);
    }
    subject(random, &wishes)
}

/// Bad records and broken links in any places, so that runs begin, end and are looked for
/// everywhere.
fn mixed(random: &mut Xorshift) -> Subject {
    let mut wishes = wishes(random, false, close);
    let seldom = random.pick(&[4, 8, 16]);
    for wish in &mut wishes {
        if random.once_in(seldom) {
            wish.spoil(random);
        }
        if random.once_in(seldom) {
            wish.tie = random.pick(&BROKEN);
        }
    }
    subject(random, &wishes)
}

/// Times that fall so slowly that it takes `apart` steps for two records to contradict each other,
/// and then several runs are equally long. Now and then a radius is larger, or a link is broken.
fn far_apart(random: &mut Xorshift) -> Subject {
    let (step, apart) = (3 + random.below(20) as u64, 1 + random.below(MOST_RECORDS - 1));
    let count = apart + 1 + random.below(MOST_RECORDS - apart);
    // Two radii are as much as one step less takes, or a second more, or two where that is nothing.
    let radi = 1.max((step as usize * (apart - 1) + 1) / 2);
    let mut wish = |place| {
        let radi = radi as u32 + u32::from(random.once_in(30));
        let tie = if random.once_in(60) { random.pick(&BROKEN) } else { Tie::Linked };
        Wish { tie, ..Wish::good((10_000 - step * place as u64, radi)) }
    };
    let wishes: Vec<Wish> = (0..count).map(&mut wish).collect();
    subject(random, &wishes)
}

/// Windows at both ends of time, and radii at theirs.
fn ends_of_time(random: &mut Xorshift) -> Subject {
    let wishes = wishes(random, false, |random| {
        let (little, largest) = (random.below(12) as u64, u64::from(u32::MAX));
        let midps = [
            little,
            largest - little,
            largest + little,
            u64::MAX - little,
            u64::MAX - largest + little,
        ];
        let far = [u64::MAX - 2 * largest - little, 1 << 63, number(random)];
        let midp = if random.once_in(4) { random.pick(&far) } else { random.pick(&midps) };
        let little = little as u32;
        let radii = [1, 2, little.max(1), 5, u32::MAX - little, u32::MAX, radius(random)];
        (midp, random.pick(&radii))
    });
    subject(random, &wishes)
}

/// Versions around the one that is right in some records, and radii at their ends in some.
fn near_versions(random: &mut Xorshift) -> Subject {
    let rich = random.once_in(2);
    let mut wishes = wishes(random, rich, close);
    let seldom = random.pick(&[2, 6, 12]);
    for wish in &mut wishes {
        if random.once_in(seldom) {
            wish.versions = Some((versions_near(random), versions_near(random)));
        }
        if random.once_in(seldom) {
            wish.radi = random.pick(&[0, 1, 1, u32::MAX]);
        }
    }
    subject(random, &wishes)
}

/// Piles that are not whole, with too few or too many answers, or with answers that are none.
fn refused(random: &mut Xorshift) -> Subject {
    let wishes = wishes(random, false, close);
    let (mut made, _) = piles::build(random, &wishes, true);
    let count = wishes.len();
    match random.below(7) {
        0 => made.pile.truncate(made.pile.len() - 1 - random.below(RECORD - 1)),
        1 => made.pile.extend(random.bytes(1)),
        2 => {
            made = Made { pile: made.pile.repeat(17)[..17 * RECORD].to_vec(), answers: vec![1; 34] }
        }
        3 => made = Made { pile: vec![], answers: vec![1; 2 * random.below(3)] },
        4 => made.answers[random.below(2 * count)] = random.pick(&[2, 3, 4, 128, 254, 255]),
        5 => made.answers.truncate(random.below(2 * count)),
        _ => made.answers.extend(vec![1; 1 + random.below(3)]),
    }
    (made, Due::Refused)
}

/// Some bits turned anywhere. What comes of it is for the two sides to say.
fn flipped(random: &mut Xorshift) -> Subject {
    let rich = random.once_in(2);
    let wishes = wishes(random, rich, close);
    let (mut made, _) = piles::build(random, &wishes, true);
    for _ in 0..1 + random.below(4) {
        let at = random.below(made.pile.len());
        // The first bytes of an area have a meaning more often than others.
        let at = if random.once_in(2) {
            at
        } else {
            at - at % RECORD + random.pick(&[96, 2096]) + random.below(80)
        };
        made.pile[at] ^= 1 << random.below(8);
    }
    (made, Due::Unknown)
}

/// Records of bytes that nobody meant anything by, some of them laid out as they must be, and
/// records in another order.
fn noise(random: &mut Xorshift) -> Subject {
    let wishes = wishes(random, false, close);
    let (made, _) = piles::build(random, &wishes, true);
    let mut records: Vec<Vec<u8>> = made.pile.chunks(RECORD).map(<[u8]>::to_vec).collect();
    for _ in 0..3 {
        let (at, other) = (random.below(records.len()), random.below(records.len()));
        match random.below(3) {
            0 => records.swap(at, other),
            1 => records[at] = random.bytes(RECORD),
            _ => {
                let (asked, told) = (random.below(2_001), random.below(2_001));
                let (asked, told) = (random.bytes(asked), random.bytes(told));
                records[at] = making::record(&random.array(), &random.array(), &asked, &told);
            }
        }
    }
    let answers = made.answers.iter().map(|_| u8::from(!random.once_in(8))).collect();
    (Made { pile: records.concat(), answers }, Due::Unknown)
}

type Group = (&'static str, usize, fn(&mut Xorshift) -> Subject);

const GROUPS: [Group; 11] = [
    ("valid and linked, in every shape", 4_000, valid),
    ("with one fault in a record or two", 8_000, one_fault),
    ("with several faults in some records", 3_600, several_faults),
    ("with links broken in every way", 5_000, broken_links),
    ("with bad records and broken links anywhere", 12_000, mixed),
    ("with contradictions some places apart", 4_000, far_apart),
    ("with windows at the ends of time", 4_000, ends_of_time),
    ("with versions around the right one, and radii of 0, 1 and 2^32 - 1", 3_000, near_versions),
    ("that are none, or whose answers are none", 2_000, refused),
    ("with bits turned anywhere", 3_000, flipped),
    ("of random bytes, or in another order", 1_000, noise),
];

#[test]
fn both_sides_say_the_same_of_piles() {
    let mut seen = Comparison::new();
    for (name, count, group) in GROUPS {
        seen.group = name;
        for _ in 0..count {
            let subject = group(&mut seen.random);
            seen.ask(subject);
        }
        println!("{count:>8} piles: {name}");
    }
    println!(
        "{} piles in all, ours compared with independent; how often each code was given:",
        seen.piles
    );
    println!("{}", seen.tally.table("code"));
    println!("runs that were cut, by their number of records:\n{}", seen.runs.table("length"));
    let Comparison {
        links: [apart, linked],
        contradictions: [agreeing, contradicting],
        first_rands,
        ..
    } = seen;
    println!(
        "{linked} places held a linked record, and {apart} did not, the first and past the last \
         counted;"
    );
    println!("{contradicting} pairs of windows contradicted each other, and {agreeing} did not;");
    println!("{} piles had a first rand of zero, and {} had not", first_rands[1], first_rands[0]);
    seen.tally.no_difference();
    enough(&seen);
    counted(seen.piles, "piles");
}

/// A comparison that met a code too seldom says little of it.
fn enough(seen: &Comparison) {
    assert!(seen.piles >= 20_000, "there were {} piles", seen.piles);
    seen.tally.at_least(1_000, PILES, [0, 15]);
    seen.tally.at_least(300, RECORDS, 0..=16);
    seen.tally.at_least(1_000, CONTRADICTIONS, [0, 15, 18]);
    seen.tally.at_least(50, REPORTS, 0..=18);
    seen.tally.at_least(1_000, CUTS, [0, 15, 18, 19]);
    seen.runs.at_least(20, RUNS, 2..=16);
    let least = seen.links.iter().chain(&seen.contradictions).chain(&seen.first_rands).min();
    assert!(least >= Some(&1_000), "an answer was given too seldom");
}

/// Both sides' run in a pile, where they agree.
fn run_of(Made { pile, answers }: &Made) -> Result<(usize, usize), u32> {
    let both = Asked { pile, answers }.cut(pile);
    assert!(
        both.ours == both.independent,
        "ours: {}, independent: {}",
        both.ours.show(),
        both.independent.show()
    );
    both.ours.answer.map(|run| (run.first, run.last)).map_err(|bad| bad.code)
}

/// Examples 1 to 3, 5 to 7 and 14 of the document.
#[test]
fn the_examples_of_the_document() {
    assert_eq!(run_of(&pile_of(&[(1000, 5), (990, 5)])), Err(18));
    assert_eq!(run_of(&pile_of(&[(1000, 5), (990, 4)])), Ok((0, 1)));
    assert_eq!(run_of(&pile_of(&[(3, 10), (0, 1)])), Err(18));
    assert_eq!(run_of(&pile_of(&[(1000, 10), (1500, 10), (1495, 1), (1400, 10)])), Ok((2, 3)));
    assert_eq!(run_of(&pile_of(&[(100, 1), (90, 1), (80, 1)])), Ok((0, 1)));
    let mut apart = pile_of(&[(100, 1), (95, 20), (80, 1)]);
    assert_eq!(run_of(&apart), Ok((0, 2)));
    apart.answers[2] = 0;
    assert_eq!(run_of(&apart), Err(18));
    assert_eq!(run_of(&pile_of(&[(1000, 5); 16])), Err(18));
    assert_eq!(run_of(&pile_of(&[(1000, 5); 17])), Err(15));
    println!(
        "the examples of the document about piles: 9 piles, both sides compared with what it says"
    );
}
