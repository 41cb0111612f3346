//! Piles written as JSON, by the proved library and by the independent implementation: every code,
//! place and byte must be the same. What was written is read again, and must be the same records.

mod support;

use independent::appendix;
use independent::ed25519::Ed25519;
use independent::making::{self, Link, Made};
use independent::pile::RECORD;
use independent::report_text;
use support::pile_answers::Asked;
use support::published::{pile_with, same_records, Fault, FAULTS};
use support::signing::Servers;
use support::tally::Tally;
use support::text_answers as asking;
use support::{counted, vectors, Xorshift};
use trawlbeacon::{Refusal, LONGEST_REPORT};

const PILES: usize = 4_000;
const SIGNED: usize = 300;

const WRITTEN: &str = "written";

const COUNTED: &str = "piles to be written as reports";

#[test]
fn both_sides_write_the_same() {
    let (mut tally, mut random) = (Tally::new(&[WRITTEN]), Xorshift::new(0x5eed_0702));
    for number in 0..PILES {
        let fault = random.pick(&FAULTS);
        let (Made { pile, answers }, truth) = pile_with(&mut random, fault, None);
        let asked = Asked { pile: &pile, answers: &answers };
        let needed = report_text::write(&pile, &answers).map_or(100, |text| text.len());
        let before = asking::buffer(&mut random, needed);
        let both = asking::write_report(asked, &before);
        let due = match (fault, truth.report()) {
            (Fault::Pile, _) => Err((15, None)),
            (_, Err(refused)) => Err(refused),
            (_, Ok(_)) if before.len() < needed => Err((19, None)),
            (_, Ok(_)) => Ok(needed),
        };
        let code = due.map_or_else(|refused| refused.0, |_| 0);
        tally.answer(WRITTEN, &both, Some(code), || format!("pile {number}"));
        assert_eq!(
            both.ours.answer.map_err(|(code, place, _)| (code, place)),
            due,
            "pile {number}"
        );
        if let Ok(length) = due {
            same_records(&both.ours.buffer[..length], &pile);
        }
        let mut out = vec![0; random.pick(&[0, 1_000, 100_000])];
        assert_eq!(asking::unseen_fields(asked, &both.ours.buffer, &mut out), None);
    }
    println!(
        "{PILES} piles written as JSON, ours compared with independent, and read again; codes:"
    );
    println!("{}", tally.table("code"));
    tally.no_difference();
    tally.at_least(5, WRITTEN, 1..=18);
    tally.at_least(100, WRITTEN, [0, 15, 17, 18, 19]);
    counted(tally.answers(), COUNTED);
}

/// The report of draft 19, appendix B, as the draft prints it.
#[test]
fn the_draft_s_own_report() {
    let text = vectors("malfeasance-report.json").into_bytes();
    let Made { pile, answers } = appendix::pile();
    let mut records = vec![0xee; pile.len()];
    assert_eq!(trawlbeacon::read_report(&text, &mut records), Ok(3));
    assert!(records == pile, "other records are read");
    let pair = trawlbeacon::check_signed_report(&records).expect("it is a report");
    assert_eq!((pair.first, pair.second), (0, 1));
    let mut out = vec![0; LONGEST_REPORT];
    let length = trawlbeacon::write_report(&records, &answers, &mut out).expect("it is a report");
    same_records(&out[..length], &pile);
    let signed = |out: &mut [u8]| trawlbeacon::write_signed_report(&records, out);
    let mut again = vec![0; length];
    assert_eq!(signed(&mut again), Ok(length));
    assert!(again == out[..length], "by its signatures another text is written");
    let short = signed(&mut again[1..]).map_err(|why| why.refusal);
    assert_eq!(short, Err(Refusal::Room));
    println!(
        "draft 19, appendix B: read as 3 records, a report for 0 and 1 by answers and by its \
         signatures, written with {length} bytes and read again"
    );
}

/// Piles whose records are signed by real keys, or forged.
#[test]
fn both_sides_judge_the_same_signatures() {
    let mut random = Xorshift::new(0x5eed_0704);
    let servers = Servers::new(&mut random, 6);
    let mut tally = Tally::new(&[WRITTEN]);
    for number in 0..SIGNED {
        let fault = random.pick(&FAULTS[..FAULTS.len() - 1]);
        let (Made { pile, .. }, truth) = pile_with(&mut random, fault, Some(&servers));
        let before = vec![0xee; random.pick(&[1_000, LONGEST_REPORT])];
        let both = asking::write_signed(&servers.ed25519, &pile, &before);
        let due = match truth.report() {
            Err((code, _)) => code,
            Ok(_) if before.len() < 2_000 => 19,
            Ok(_) => 0,
        };
        tally.answer(WRITTEN, &both, Some(due), || format!("pile {number}"));
    }
    println!("{SIGNED} piles with signatures, written with no answers lent; codes:");
    println!("{}", tally.table("code"));
    tally.no_difference();
    tally.at_least(10, WRITTEN, [0, 12, 13, 17, 18, 19]);
    counted(tally.answers(), COUNTED);
}

/// What is no pile has no signatures to be judged by.
#[test]
fn what_is_no_pile_has_no_signatures() {
    let Made { pile, .. } = appendix::pile();
    for length in [0, 1, RECORD - 1, 3 * RECORD - 1] {
        let both = asking::write_signed(&Ed25519::new(), &pile[..length], &[]);
        let due = Err((15, None, None));
        assert_eq!((both.ours.answer, both.independent.answer), (due, due));
    }
}

/// The longest report that there is, and one byte too little room for it.
#[test]
fn the_longest_report() {
    let window = |place: u64| if place == 15 { (100, 1) } else { (1_000, 1) };
    let links = (0..16).map(|place| Link {
        siblings: 32,
        request_size: 2_000,
        response_size: 2_000,
        ..Link::new(place as u8, window(place).0, window(place).1)
    });
    let Made { pile, answers } = making::chain(&links.collect::<Vec<_>>());
    let mut out = vec![0; LONGEST_REPORT];
    let short = trawlbeacon::write_report(&pile, &answers, &mut out[1..]);
    assert_eq!(short.map_err(|why| why.refusal), Err(Refusal::Room));
    assert_eq!(trawlbeacon::write_report(&pile, &answers, &mut out), Ok(LONGEST_REPORT));
    same_records(&out, &pile);
}
