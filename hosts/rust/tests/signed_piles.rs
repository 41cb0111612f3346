//! Piles judged, checked as reports and cut by their own signatures, by the proved library and by
//! the independent implementation: every code, window, key, place and byte must be the same, and the
//! same as the forms that take answers say with those of the two verifiers.
//!
//! Every response is signed by real keys of several servers. Most piles are made so that it is known
//! what must be said of them, and then both sides are held to it as well.

mod support;

use independent::making::Made;
use independent::pile::{MOST_RECORDS, RECORD};
use independent::{making, signing};
use std::time::Duration;
use support::answers::{Answer, Both, Written};
use support::due::{pattern, Due};
use support::pile_answers::Reported;
use support::piles::{self, Wish, BROKEN};
use support::signed_answers::Alone;
use support::signing::Servers;
use support::tally::Tally;
use support::{counted, hex, shortest, Xorshift};
use trawlbeacon::{Record, Refusal, Run, SignedPile};

const RECORDS: &str = "records";
const REPORTS: &str = "reports";
const CUTS: &str = "cuts";
const RUNS: &str = "runs";

struct Comparison {
    tally: Tally,
    /// How often a run of each length was cut.
    runs: Tally,
    random: Xorshift,
    servers: Servers,
    group: &'static str,
    piles: usize,
}

type Subject = (Made, Due);

impl Comparison {
    fn new(seed: u64) -> Self {
        let mut random = Xorshift::new(seed);
        let servers = Servers::new(&mut random, 12);
        let (tally, runs) = (Tally::new(&[RECORDS, REPORTS, CUTS]), Tally::new(&[RUNS]));
        Comparison { tally, runs, random, servers, group: "", piles: 0 }
    }

    /// The inputs are the same in every run, so that the number of a pile is enough to find it
    /// again.
    fn name(&self, alone: Alone) -> String {
        let Comparison { group, piles, .. } = self;
        format!("pile {piles} ({group}), {} bytes", alone.pile.len())
    }

    /// Both sides must say the same, and what is due where that is known.
    fn same<T: Answer>(&mut self, column: &str, alone: Alone, both: &Both<T>, due: Option<T>) {
        let name = self.name(alone);
        self.tally.answer(column, both, due.as_ref().map(Answer::code), || name.clone());
        if let Some(due) = due.filter(|due| *due != both.ours && due.code() == both.ours.code()) {
            let (ours, due) = (both.ours.show(), due.show());
            self.tally.differs(format!("{column}: {name}\n  ours {ours}\n  due  {due}"));
        }
    }

    fn wrong(&mut self, alone: Alone, how: Option<String>) {
        if let Some(how) = how {
            self.tally.differs(format!("{how}\n  for {}", self.name(alone)));
        }
    }

    /// Asks all there is to ask about a pile, which starts anywhere.
    fn ask(&mut self, (Made { pile, answers: _ }, due): Subject) {
        let start = self.random.below(16);
        let shifted = [vec![0; start], pile].concat();
        let ed25519 = self.servers.ed25519;
        let alone = Alone { pile: &shifted[start..], ed25519: &ed25519 };
        let judged = alone.judged();
        for (place, both) in judged.iter().enumerate() {
            let at = both.independent.err().and_then(|bad| bad.at);
            self.same(RECORDS, alone, both, due.verdict(place, at));
        }
        let report = alone.report();
        let at = report.independent.0.err().and_then(|(_, _, at)| at);
        self.same(REPORTS, alone, &report, due.report(at));
        // No signature is read where there is no room, so that this costs nothing.
        let short = self.random.below(alone.pile.len().max(1));
        self.ask_cut(alone, &due, short);
        let more = self.random.below(5_000);
        let room = alone.pile.len() + self.random.pick(&[0, 1, more]);
        let (before, cut) = self.ask_cut(alone, &due, room);
        let answers = alone.answers();
        let differing = (answers.ours != answers.independent)
            .then(|| format!("answers {} and {}", hex(&answers.ours), hex(&answers.independent)));
        self.wrong(alone, differing);
        let given = alone.differs_given(&answers.ours, &judged, report.ours, (&before, &cut.ours));
        self.wrong(alone, given);
        if self.random.once_in(4) {
            let place = self.random.below(judged.len() + 1);
            self.wrong(alone, alone.unseen_fields(&answers.ours, place, room));
        }
        self.piles += 1;
    }

    /// Cuts into a buffer of this length. What was cut is a report by its own signatures.
    fn ask_cut(&mut self, alone: Alone, due: &Due, room: usize) -> (Vec<u8>, Both<Written<Run>>) {
        let before = pattern(&mut self.random, room);
        let both = alone.cut(&before);
        self.same(CUTS, alone, &both, due.cut(alone.pile, &before));
        if let Ok(run) = both.ours.answer {
            self.runs.count(RUNS, run.records() as u32);
            let bytes = &both.ours.buffer[..run.records() * RECORD];
            let told =
                trawlbeacon::check_signed_report(bytes).map(|pair| (pair.first, pair.second));
            if told != Ok((0, run.records() - 1)) {
                self.wrong(alone, Some(format!("the run that was cut: {told:?}")));
            }
        }
        (before, both)
    }
}

/// A window, so close to others of its kind that some contradict each other and most do not.
fn close(random: &mut Xorshift) -> (u64, u32) {
    (1_000 + random.below(60) as u64, 1 + random.below(29) as u32)
}

/// Up to `most` good records.
fn wishes(random: &mut Xorshift, most: usize) -> Vec<Wish> {
    let (count, rich) = (1 + random.below(most), random.once_in(2));
    (0..count).map(|_| Wish { rich, ..Wish::good(close(random)) }).collect()
}

/// The signed pile of these wishes. Now and then the first rand is not zero.
fn subject(seen: &mut Comparison, wishes: &[Wish]) -> Subject {
    let zero = !seen.random.once_in(16);
    let (made, truth) = piles::build_signed(&mut seen.random, wishes, zero, &seen.servers);
    (made, Due::Known(truth))
}

/// All valid and linked.
fn valid(seen: &mut Comparison, _: usize) -> Subject {
    let wishes = wishes(&mut seen.random, MOST_RECORDS);
    subject(seen, &wishes)
}

/// Two records that contradict each other, or not quite.
fn two(seen: &mut Comparison, _: usize) -> Subject {
    let (radi, other) = (1 + seen.random.below(9) as u32, 1 + seen.random.below(9) as u32);
    let apart = u64::from(radi + other + seen.random.below(3) as u32);
    let wishes = [(1_000 + apart, radi), (1_000, other)].map(Wish::good);
    subject(seen, &wishes)
}

/// One record with one fault, each code in turn, and 1 twice: of a record that is refused for a
/// response of more than 2,000 bytes 16 is said.
fn each_code(seen: &mut Comparison, turn: usize) -> Subject {
    let codes: Vec<u32> = (1..=14).chain([16, 1]).collect();
    let mut wishes = wishes(&mut seen.random, 4);
    let at = seen.random.below(wishes.len());
    wishes[at].fault(codes[turn % codes.len()]);
    subject(seen, &wishes)
}

/// Links broken in every way, in piles of valid records.
fn broken_links(seen: &mut Comparison, _: usize) -> Subject {
    let mut wishes = wishes(&mut seen.random, 6);
    let at = seen.random.below(wishes.len());
    wishes[at].tie = seen.random.pick(&BROKEN);
    subject(seen, &wishes)
}

/// Bad records and broken links in any places.
fn mixed(seen: &mut Comparison, _: usize) -> Subject {
    let mut wishes = wishes(&mut seen.random, MOST_RECORDS);
    let seldom = seen.random.pick(&[3, 6]);
    for wish in &mut wishes {
        if seen.random.once_in(seldom) {
            wish.spoil(&mut seen.random);
        }
        if seen.random.once_in(12) {
            wish.tie = seen.random.pick(&BROKEN);
        }
    }
    subject(seen, &wishes)
}

/// Piles that are not 1 to 16 whole records.
fn refused(seen: &mut Comparison, turn: usize) -> Subject {
    let (mut made, _) = subject(seen, &[Wish::good((1_000, 5))]);
    made.pile = match turn % 4 {
        0 => vec![],
        1 => made.pile[..1 + seen.random.below(RECORD - 1)].to_vec(),
        2 => [&made.pile[..], &seen.random.bytes(1)].concat(),
        _ => made.pile.repeat(17 + seen.random.below(3)),
    };
    (made, Due::Refused)
}

/// Some bits turned anywhere. What comes of it is for the two sides to say.
fn flipped(seen: &mut Comparison, _: usize) -> Subject {
    let wishes = wishes(&mut seen.random, 4);
    let (mut made, _) = subject(seen, &wishes);
    for _ in 0..1 + seen.random.below(2) {
        let at = seen.random.below(made.pile.len());
        // The key, the rand and the packets' first bytes have a meaning more often than others.
        let near = at - at % RECORD + seen.random.pick(&[0, 32, 96, 2096, 2196, 2396]);
        let at = if seen.random.once_in(3) { at } else { near + seen.random.below(64) };
        made.pile[at] ^= 1 << seen.random.below(8);
    }
    (made, Due::Unknown)
}

type Group = (&'static str, usize, fn(&mut Comparison, usize) -> Subject);

const GROUPS: [Group; 7] = [
    ("valid and linked, of up to 16 records", 120, valid),
    ("of two records that contradict each other, or not quite", 150, two),
    ("with one fault, each code in turn", 1_680, each_code),
    ("with links broken in every way", 180, broken_links),
    ("with bad records and broken links anywhere", 120, mixed),
    ("that are none", 120, refused),
    ("with bits turned anywhere", 250, flipped),
];

#[test]
fn both_sides_say_the_same_of_signed_piles() {
    let mut seen = Comparison::new(0x5eed_1111);
    for (name, count, group) in GROUPS {
        seen.group = name;
        for turn in 0..count {
            let subject = group(&mut seen, turn);
            seen.ask(subject);
        }
        println!("{count:>8} piles: {name}");
    }
    println!(
        "{} piles with real signatures, ours compared with independent; how often each code was \
         given:\n{}",
        seen.piles,
        seen.tally.table("code")
    );
    println!("runs that were cut, by their number of records:\n{}", seen.runs.table("length"));
    seen.tally.no_difference();
    seen.tally.at_least(100, RECORDS, 0..=16);
    seen.tally.at_least(100, REPORTS, 0..=18);
    seen.tally.at_least(100, CUTS, [0, 15, 18, 19]);
    seen.runs.at_least(10, RUNS, 2..=3);
    counted(seen.piles, "piles by their own signatures");
}

/// Document 01's fifth example, signed by two servers in turn, made of its parts by a host.
fn example() -> SignedPile {
    let ed25519 = independent::ed25519::Ed25519::new();
    let keys = [1, 2].map(|seed| signing::Keys::new(&ed25519, [seed; 32], [seed + 2; 32]));
    let times = [(1000, 10), (1500, 10), (1495, 1), (1400, 10)];
    let link =
        |(place, (midp, radi)): (usize, &(u64, u32))| making::Link::new(place as u8, *midp, *radi);
    let links: Vec<_> = times.iter().enumerate().map(link).collect();
    let bytes = signing::chain(&ed25519, &links, |place| &keys[place % 2]);
    let mut pile = SignedPile::new();
    for record in independent::pile::records(&bytes).expect("it is a pile") {
        let (request, response) = record.packets().expect("it is laid out as it must be");
        let record = Record::new(record.key(), record.rand(), request, response);
        pile.push(&record.expect("both fit")).expect("there is room");
    }
    assert!(pile.bytes() == bytes);
    pile
}

#[test]
fn a_host_gathers_a_pile_without_answers() {
    let pile = example();
    assert_eq!(pile.records(), 4);
    assert_eq!(pile.check_report().map(|pair| (pair.first, pair.second)), Ok((2, 3)));
    let cut = pile.cut().expect("two records contradict each other");
    assert_eq!(cut.run, Run { first: 2, last: 3 });
    let told = trawlbeacon::check_signed_report(&cut.bytes);
    assert_eq!(told.map(|pair| (pair.first, pair.second)), Ok((0, 1)));
    for place in 0..=4 {
        assert_eq!(pile.judge(place), trawlbeacon::judge_signed(pile.bytes(), place));
    }
    let mut full = SignedPile::new();
    assert_eq!(full.judge(0).map_err(Refusal::from), Err(Refusal::Pile));
    assert_eq!((full.cut(), full.records()), (Err(Refusal::Pile), 0));
    let record = Record::new(&[0; 32], &[0; 32], &[], &[]).expect("both fit");
    for _ in 0..MOST_RECORDS {
        assert_eq!(full.push(&record), Ok(()));
    }
    let before = full.clone();
    assert_eq!(full.push(&record), Err(Refusal::Pile));
    assert!(full == before && full.records() == MOST_RECORDS);
}

/// Every byte of the keys and of the rands of two records that convict: a key counts for the record
/// itself, and a rand for its link.
#[test]
fn every_byte_of_a_key_and_a_rand_counts() {
    let mut seen = Comparison::new(0x5eed_1112);
    let pile = example();
    let ed25519 = seen.servers.ed25519;
    for place in (0..64).map(|at| 2 * RECORD + at).chain((0..64).map(|at| 3 * RECORD + at)) {
        let mut bytes = pile.bytes().to_vec();
        bytes[place] ^= 1 << seen.random.below(8);
        let alone = Alone { pile: &bytes, ed25519: &ed25519 };
        let (report, key) = (alone.report(), place % RECORD < 32);
        let code = if key { 12 } else { 17 };
        let due = Reported(Err((code, Some(place / RECORD), None)));
        assert_eq!((report.ours, report.independent), (due, due), "byte {place}");
        // The rand of the first record of a run is not looked at.
        let both = alone.cut(&bytes);
        let [cut, independent] =
            [both.ours, both.independent].map(|cut| cut.answer.map_err(|bad| bad.code));
        let stands = !key && place / RECORD == 2;
        let due = if stands { Ok(Run { first: 2, last: 3 }) } else { Err(18) };
        assert_eq!((cut, independent), (due, due), "byte {place}");
    }
    println!("128 bytes of keys and rands of a run, each of which counts, compared");
}

/// A full pile of damaged records costs no verification, nor does a report whose first record is
/// damaged, or a cutter without room; where one record of 16 is left, only that one is verified.
#[test]
fn damaged_records_cost_no_verification() {
    let mut seen = Comparison::new(0x5eed_1113);
    let mut pile_with = |codes: &dyn Fn(usize) -> Option<u32>| {
        let wish = |place: usize| {
            let mut wish = Wish::good((1_000, 5));
            codes(place).into_iter().for_each(|code| wish.fault(code));
            wish
        };
        let wishes: Vec<Wish> = (0..MOST_RECORDS).map(wish).collect();
        piles::build_signed(&mut seen.random, &wishes, true, &seen.servers).0.pile
    };
    let good = pile_with(&|_| None);
    let mut out = vec![0; good.len()];
    let mut cutter = |pile: &[u8]| shortest(|| trawlbeacon::cut_signed_run(pile, &mut out));
    let spoilt = pile_with(&|place| Some(9 + place as u32 % 3));
    let (whole, none) = (cutter(&good), cutter(&spoilt));
    let one = cutter(&pile_with(&|place| (place != 7).then_some(10)));
    let spoilt = pile_with(&|place| (place == 0).then_some(11));
    let report = shortest(|| trawlbeacon::check_signed_report(&spoilt));
    let room = shortest(|| trawlbeacon::cut_signed_run(&good, &mut []));
    let judged = shortest(|| trawlbeacon::judge_signed(&good, 5));
    let part = |time: Duration| time.as_secs_f64() / whole.as_secs_f64();
    println!(
        "a cutter over 16 signed records: {:.2} ms; by it, all damaged {:.3}, all but one {:.3}, \
         without room {:.5}; a report whose first record is damaged {:.3}; one record judged {:.3}",
        whole.as_secs_f64() * 1e3,
        part(none),
        part(one),
        part(room),
        part(report),
        part(judged)
    );
    assert!(part(none) < 0.1 && part(report) < 0.1 && part(room) < 0.1);
    assert!(part(one) < 0.2 && part(judged) < 0.2);
}
