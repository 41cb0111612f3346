//! Responses checked against requests by the proved library and by the independent implementation:
//! every code, every window and every key must be the same.
//!
//! Where the rules that a pair breaks are known, so is the code that is due, and then both sides
//! are held to it as well; where it breaks none, they are held to the window that its fields make,
//! and to its MINT, MAXT and PUBK.

mod support;

use independent::packet;
use support::answers::{Bad, Both};
use support::damage::{self, set_word};
use support::packets::{number, radius, versions_near, Kind, Level, ResponseFields};
use support::pairs::{Pair, Question, RULES};
use support::tally::Tally;
use support::{counted, hex, Xorshift};
use trawlbeacon::Checked;

const CHECKS: &str = "checks";
const VALID: &str = "valid";

/// The most siblings of a path.
const DEEPEST: usize = 32;

/// Both questions about signatures, answered in all four ways.
const ANSWERS: [(bool, bool); 4] = [(true, true), (true, false), (false, true), (false, false)];

struct Comparison {
    tally: Tally,
    /// How often a valid pair had a path of each depth.
    depths: Tally,
    random: Xorshift,
    /// Windows that would have started below 0, and such as would have ended above 2^64 - 1.
    cut: [usize; 2],
    /// Pairs of known fields whose VERS lacked the version, and such as both sides knew better.
    unlisted: usize,
    talked_down: usize,
}

impl Comparison {
    /// Returns both answers.
    fn ask(&mut self, question: &Question, due: Option<u32>) -> Both<Result<Checked, Bad>> {
        let both = question.ask();
        self.tally.answer(CHECKS, &both, due, || question.show());
        if let Some(wrong) = question.unseen_fields(&both.ours) {
            self.tally.differs(format!("{wrong}\n  for {}", question.show()));
        }
        both
    }

    /// Asks about a pair of which all broken rules are known.
    fn pair(&mut self, pair: &Pair, due: u32) {
        let question = pair.question();
        let told = self.ask(&question, Some(due)).ours;
        if due == 8 {
            let listed = pair.response.versions.contains(&1);
            self.unlisted += usize::from(!listed);
            self.talked_down += usize::from(listed && pair.talked_down());
        }
        if due != 0 {
            return;
        }
        let checked = pair.checked();
        if told != Ok(checked) {
            self.tally.differs(format!("{told:?} instead of {checked:?} for {}", question.show()));
        }
        self.depths.count(VALID, pair.response.path.len() as u32);
        let (midp, radi) = (u128::from(checked.window.midp), u128::from(checked.window.radi));
        self.cut[0] += usize::from(radi > midp);
        self.cut[1] += usize::from(midp + radi > u64::MAX.into());
    }

    /// Asks about a pair with the signatures answered in all four ways. The pair breaks the rule
    /// `due`, or none.
    fn four_ways(&mut self, pair: &Pair, due: u32) {
        for (delegation, signature) in ANSWERS {
            let answered = Pair { delegation, signature, ..pair.clone() };
            let due = match (delegation, signature) {
                _ if due != 0 => due,
                (false, _) => 12,
                (_, false) => 13,
                _ => 0,
            };
            self.pair(&answered, due);
        }
    }

    fn any_pair(&mut self) -> Pair {
        let depth = self.random.below(DEEPEST + 1);
        Pair::random(&mut self.random, depth)
    }
}

/// Valid pairs at every depth, and each of them with one rule broken.
fn every_depth(seen: &mut Comparison) {
    for depth in 0..=DEEPEST {
        for _ in 0..50 {
            let pair = Pair::random(&mut seen.random, depth);
            seen.four_ways(&pair, 0);
            for rule in [8, 9, 10, 10, 10, 11] {
                let mut broken = pair.clone();
                broken.break_rule(&mut seen.random, rule);
                seen.four_ways(&broken, rule);
            }
        }
        let lowest = Pair::random(&mut seen.random, depth);
        for indx in [0, 1, u32::MAX >> 1, u32::MAX] {
            let mut pair = lowest.clone();
            pair.response.indx = (u64::from(indx) % (1 << depth)) as u32;
            pair.tie();
            seen.pair(&pair, 0);
        }
    }
}

/// A number that needs more bits than the path has siblings, each bit in turn, though by its lower
/// bits it leads to the root.
fn long_numbers(seen: &mut Comparison) {
    for depth in 0..DEEPEST {
        let right = Pair::random(&mut seen.random, depth);
        for bit in depth..32 {
            let mut pair = right.clone();
            pair.response.indx |= 1 << bit;
            seen.four_ways(&pair, 10);
        }
    }
}

/// Times and radii at their ends, and delegations that end there, or a second beside it.
fn ends(seen: &mut Comparison) {
    let radius = u64::from(u32::MAX);
    let last = u64::MAX;
    let midps =
        [0, 1, 4, 5, 6, radius - 1, radius, radius + 1, 1 << 63, last - radius - 1, last - radius]
            .into_iter()
            .chain([last - radius + 1, last - 6, last - 5, last - 4, last - 1, last]);
    for midp in midps {
        for radi in [0, 1, 2, 5, 1 << 31, u32::MAX - 1, u32::MAX] {
            let mut pair = seen.any_pair();
            pair.response.midp = midp;
            pair.response.radi = radi;
            let (before, after) = (midp.saturating_sub(1), midp.saturating_add(1));
            for mint in [0, before, midp, after, last] {
                for maxt in [0, before, midp, after, last] {
                    (pair.response.mint, pair.response.maxt) = (mint, maxt);
                    let due = match radi {
                        0 => 7,
                        _ if mint <= midp && midp <= maxt => 0,
                        _ => 11,
                    };
                    seen.four_ways(&pair, due);
                }
            }
        }
    }
}

/// What a check has no rule for: the signatures' bytes, the delegated key, the server's versions
/// that the client does not know, and the radius but for 0.
fn free_fields(seen: &mut Comparison) {
    for _ in 0..1_500 {
        let mut pair = seen.any_pair();
        let other = ResponseFields::random(&mut seen.random);
        let ResponseFields { sig, cert_sig, pubk, versions, radi, .. } = other;
        pair.response = ResponseFields { sig, cert_sig, pubk, versions, radi, ..pair.response };
        pair.know_no_better();
        pair.response.trim();
        seen.four_ways(&pair, 0);
    }
}

/// Versions on both sides around the one that is right, and radii at their ends.
fn near_versions(seen: &mut Comparison) {
    for _ in 0..6_000 {
        let mut pair = seen.any_pair();
        pair.request.versions = versions_near(&mut seen.random);
        pair.response.versions = versions_near(&mut seen.random);
        pair.response.radi = seen.random.pick(&[0, 1, 1, 1, u32::MAX]);
        pair.request.trim();
        pair.response.trim();
        pair.tie();
        let due = match &pair {
            Pair { request, .. } if !request.versions.contains(&1) => 14,
            Pair { response, .. } if response.radi == 0 => 7,
            Pair { response, .. } if !response.versions.contains(&1) => 8,
            _ if pair.talked_down() => 8,
            _ => 0,
        };
        seen.four_ways(&pair, due);
    }
}

/// Any rules at once, with damage to the response, to the request, to both or to none.
fn several_rules(seen: &mut Comparison) {
    for _ in 0..65_000 {
        let mut pair = seen.any_pair();
        let broken: Vec<u32> = RULES.into_iter().filter(|_| seen.random.once_in(3)).collect();
        for rule in &broken {
            pair.break_rule(&mut seen.random, *rule);
        }
        let mut question = pair.question();
        let mut due = broken.first().copied().unwrap_or(0);
        if seen.random.once_in(2) {
            let damaged = damage::damaged(&mut seen.random, pair.response.plan());
            question.response = damaged.packet;
            due = damage::first(&damaged.done).map_or(due, |done| done.1);
        }
        if seen.random.once_in(6) {
            question.request = damage::bad_request(&mut seen.random, &pair.request);
            due = 14;
        }
        seen.ask(&question, Some(due));
    }
}

/// Good requests that are not the one that was answered: every part of the packet is part of the
/// leaf.
fn changed_requests(seen: &mut Comparison) {
    for _ in 0..2_000 {
        let pair = seen.any_pair();
        let mut changed = pair.clone();
        match seen.random.below(4) {
            0 => changed.request.srv = changed.request.srv.map(|_| seen.random.array()),
            1 => changed.request.others.retain(|other| other.1.is_empty()),
            2 => changed.request.versions = vec![1],
            _ => changed.request.pad(packet::MOST),
        }
        let due = if changed.request.packet() == pair.request.packet() { 0 } else { 10 };
        seen.four_ways(&changed, due);
    }
}

/// Responses to other requests, requests in the place of responses, and bytes that nobody meant
/// anything by.
fn crossed(seen: &mut Comparison) {
    for _ in 0..1_000 {
        let (one, other) = (seen.any_pair(), seen.any_pair());
        let to_another = Pair { response: other.response.clone(), ..one.clone() };
        let due = if to_another.talked_down() { 8 } else { 9 };
        seen.ask(&to_another.question(), Some(due));
        // A request may have by chance all tags that a response needs.
        let (plan, needed) = (one.request.plan(), Kind::Response.needed(Level::Outer));
        let due = needed.iter().any(|tag| !plan.has(Level::Outer, *tag)).then_some(6);
        let (one, other) = (one.question(), other.question());
        let size = seen.random.below(packet::MOST + 20);
        let noise = seen.random.bytes(size);
        seen.ask(&Question { response: one.request.clone(), ..one.clone() }, due);
        seen.ask(&Question { request: one.response.clone(), ..one.clone() }, Some(14));
        seen.ask(
            &Question { request: one.response.clone(), response: one.request.clone(), ..one },
            Some(14),
        );
        seen.ask(&Question { response: noise.clone(), ..other.clone() }, None);
        seen.ask(&Question { request: noise, ..other }, None);
    }
}

/// Every bit of some pairs turned, one at a time, in each packet.
fn flipped_bits(seen: &mut Comparison) {
    for depth in [0, 1, 5] {
        let mut question = Pair::random(&mut seen.random, depth).question();
        for bit in 0..8 * question.response.len() {
            question.response[bit / 8] ^= 1 << (bit % 8);
            seen.ask(&question, None);
            question.response[bit / 8] ^= 1 << (bit % 8);
        }
        for bit in 0..8 * question.request.len() {
            question.request[bit / 8] ^= 1 << (bit % 8);
            seen.ask(&question, None);
            question.request[bit / 8] ^= 1 << (bit % 8);
        }
    }
}

/// Either packet cut short at every length, with the length field that it had and with the right
/// one.
fn cut_short(seen: &mut Comparison) {
    for depth in [0, 3] {
        let whole = Pair::random(&mut seen.random, depth).question();
        for length in 0..whole.response.len() {
            let mut short =
                Question { response: whole.response[..length].to_vec(), ..whole.clone() };
            seen.ask(&short, Some(if length < packet::HEADER { 1 } else { 3 }));
            if length >= packet::HEADER {
                set_word(&mut short.response, 2, (length - packet::HEADER) as u32);
                seen.ask(&short, None);
            }
        }
        for length in 0..whole.request.len() {
            seen.ask(
                &Question { request: whole.request[..length].to_vec(), ..whole.clone() },
                Some(14),
            );
        }
    }
}

/// Values of each field of the response that are wrong by themselves: the first of them, or a later
/// rule, counts.
fn each_field(seen: &mut Comparison) {
    for _ in 0..40 {
        let mut pair = seen.any_pair();
        pair.break_rule(&mut seen.random, 13);
        let plan = pair.response.plan();
        for level in plan.kind.levels() {
            for tag in plan.kind.known(*level) {
                let mut question = pair.question();
                let mut without = plan.clone();
                without.pairs(*level).retain(|field| field.0 != *tag);
                question.response = without.packet();
                seen.ask(&question, Some(6));
                for _ in 0..4 {
                    let Some((value, code)) =
                        damage::wrong_value(&mut seen.random, plan.kind, *level, *tag)
                    else {
                        continue;
                    };
                    let mut wrong = plan.clone();
                    wrong.set(*level, *tag, &value);
                    question.response = wrong.packet();
                    let due = if question.response.len() > packet::MOST { 1 } else { code };
                    seen.ask(&question, Some(due));
                }
            }
        }
    }
}

/// Both packets may start anywhere.
fn unaligned(seen: &mut Comparison) {
    for start in 0..16 {
        for _ in 0..20 {
            let pair = seen.any_pair();
            let Question { request, response, .. } = pair.question();
            let (front, front_too) = (vec![0; start], vec![0; 15 - start]);
            let (request, response) = ([front, request].concat(), [front_too, response].concat());
            let told =
                trawlbeacon::check_response(&request[start..], &response[15 - start..], true, true);
            assert_eq!(told, Ok(pair.checked()), "start {start}, request {}", hex(&request));
            seen.tally.count(CHECKS, 0);
        }
    }
}

type Group = (&'static str, fn(&mut Comparison));

const GROUPS: [Group; 12] = [
    ("valid at every depth, and each with one rule broken", every_depth),
    ("with a number of too many bits", long_numbers),
    ("with times and radii at their ends", ends),
    ("with other signatures, keys, server's versions and radii", free_fields),
    ("with versions around the right one, and radii of 0, 1 and 2^32 - 1", near_versions),
    ("with several rules broken and either packet damaged", several_rules),
    ("with another good request", changed_requests),
    ("crossed, or of random bytes", crossed),
    ("with a bit turned", flipped_bits),
    ("cut short at every length", cut_short),
    ("with each field absent or wrong", each_field),
    ("at unaligned starts", unaligned),
];

#[test]
fn both_sides_check_alike() {
    let (tally, depths) = (Tally::new(&[CHECKS]), Tally::new(&[VALID]));
    let random = Xorshift::new(0x5eed_0401);
    let mut seen = Comparison { tally, depths, random, cut: [0; 2], unlisted: 0, talked_down: 0 };
    for (name, group) in GROUPS {
        let before = seen.tally.answers();
        group(&mut seen);
        println!("{:>8} pairs: {name}", seen.tally.answers() - before);
    }
    let pairs = seen.tally.answers();
    println!(
        "{pairs} pairs in all, ours compared with independent; how often each code was given:"
    );
    println!("{}", seen.tally.table("code"));
    println!(
        "valid pairs of known fields: {}, with a path of every depth from 0 to 32;",
        seen.depths.answers()
    );
    let [low, high] = seen.cut;
    println!("{low} of their windows were cut at 0, and {high} at 2^64 - 1");
    let Comparison { unlisted, talked_down, .. } = seen;
    println!("{unlisted} pairs with a VERS that lacks the version, and {talked_down} downgrades");
    seen.tally.no_difference();
    assert!(pairs >= 100_000, "there were {pairs} pairs");
    seen.tally.at_least(100, CHECKS, 0..=14);
    seen.depths.at_least(50, VALID, 0..=DEEPEST as u32);
    assert!(low >= 100 && high >= 100, "too few windows were cut");
    assert!(unlisted >= 1_000 && talked_down >= 1_000, "too few versions were wrong");
    counted(pairs, "requests with their responses");
}

/// Fields of small and of large numbers alike, so that the ends are not all that is looked at.
#[test]
fn windows_are_what_their_numbers_say() {
    let mut random = Xorshift::new(0x5eed_0402);
    let mut pair = Pair::random(&mut random, 0);
    (pair.response.mint, pair.response.maxt) = (0, u64::MAX);
    for _ in 0..2_000 {
        (pair.response.midp, pair.response.radi) = (number(&mut random), radius(&mut random));
        let both = pair.question().ask();
        assert_eq!((both.ours, both.independent), (Ok(pair.checked()), Ok(pair.checked())));
    }
    println!(
        "windows: 2000 midpoints and radii, both sides compared with the sum and the difference"
    );
}
