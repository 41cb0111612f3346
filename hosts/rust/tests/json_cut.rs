//! Reports as JSON that are read, cut and written in one call, by the proved library and by the
//! independent implementation: every code, place and byte must be the same. What was cut is judged
//! again.

mod support;

use independent::appendix;
use independent::making::Made;
use independent::pile::RECORD;
use independent::report_text::{self, Entry};
use support::cut_answers as asking;
use support::published::{entries_of, pile_with, text_of, Fault, FAULTS};
use support::signing::Servers;
use support::tally::Tally;
use support::text_answers::buffer;
use support::{counted, vectors, Xorshift};
use trawlbeacon::{Run, LONGEST_REPORT};

const TEXTS: usize = 4_000;
const SIGNED: usize = 300;

const CUTS: &str = "cut";

const COUNTED: &str = "texts to be cut";

#[test]
fn both_sides_cut_the_same() {
    let (mut tally, mut random) = (Tally::new(&[CUTS]), Xorshift::new(0x5eed_0703));
    let mut number = 0;
    while number < TEXTS {
        let fault = random.pick(&FAULTS);
        // A text has no answers within it, and nothing for its first rand.
        let within = if fault == Fault::Pile { Fault::None } else { fault };
        let (Made { pile, mut answers }, truth) = pile_with(&mut random, within, None);
        let Some(entries) = entries_of(&pile) else { continue };
        let mut text = text_of(&mut random, &entries);
        let mut due = truth.run().ok_or(18);
        if fault == Fault::Pile {
            answers.pop();
            due = Err(15);
        }
        if random.once_in(20) {
            text = wrong_number(&mut random, &entries);
            due = Err(25);
        }
        if random.once_in(20) {
            text.push(b'}');
            due = Err(24);
        }
        let needed = report_text::cut(&text, &answers).map_or(100, |cut| cut.1.len());
        let before = buffer(&mut random, needed);
        if due.is_ok() && before.len() < needed {
            due = Err(19);
        }
        let both = asking::cut_text(&text, &answers, &before);
        tally.answer(CUTS, &both, Some(due.err().unwrap_or(0)), || format!("text {number}"));
        let told = both.ours.answer.map(|cut| (cut.run.first, cut.run.last));
        assert_eq!(told.map_err(|bad| bad.code), due, "text {number}");
        let mut out = vec![0; random.pick(&[0, needed])];
        assert_eq!(asking::unseen_fields(&text, &answers, &mut out), None);
        if let Ok(cut) = both.ours.answer {
            is_evidence(&both.ours.buffer[..cut.length], &answers, cut.run);
        }
        number += 1;
    }
    println!("{TEXTS} texts cut, ours compared with independent, and judged again; codes:");
    println!("{}", tally.table("code"));
    tally.no_difference();
    tally.at_least(100, CUTS, [0, 15, 18, 19, 24, 25]);
    counted(tally.answers(), COUNTED);
}

/// The text of no entry, or of 17 and more.
fn wrong_number(random: &mut Xorshift, entries: &[Entry]) -> Vec<u8> {
    let count = random.pick(&[0, 17, 18, 40]);
    let entries: Vec<Entry> = entries.iter().cycle().take(count).cloned().collect();
    report_text::text(&entries).into_bytes()
}

/// What was cut stands by itself: its records are a report, for the first and the last of them.
fn is_evidence(text: &[u8], answers: &[u8], run: Run) {
    let mut pile = vec![0; run.records() * RECORD];
    assert_eq!(trawlbeacon::read_report(text, &mut pile), Ok(run.records()));
    let pair = trawlbeacon::check_report(&pile, &answers[2 * run.first..2 * run.last + 2]);
    let pair = pair.expect("what is cut is a report");
    assert_eq!((pair.first, pair.second), (0, run.last - run.first));
}

/// The report of draft 19, appendix B, as the draft prints it.
#[test]
fn the_draft_s_own_report() {
    let text = vectors("malfeasance-report.json").into_bytes();
    let Made { answers, .. } = appendix::pile();
    let (mut out, mut again) = (vec![0; LONGEST_REPORT], vec![0; LONGEST_REPORT]);
    let cut = trawlbeacon::cut_text(&text, &answers, &mut out).expect("a run convicts");
    assert_eq!((cut.run.first, cut.run.last), (0, 1));
    is_evidence(&out[..cut.length], &answers, cut.run);
    assert_eq!(trawlbeacon::cut_signed_text(&text, &mut again), Ok(cut));
    assert!(again == out, "by its signatures another run is cut");
    println!("draft 19, appendix B: cut to its entries 0 and 1, with {} bytes", cut.length);
}

/// Texts of piles whose records are signed by real keys, or forged.
#[test]
fn both_sides_judge_the_same_signatures() {
    let mut random = Xorshift::new(0x5eed_0705);
    let servers = Servers::new(&mut random, 6);
    let mut tally = Tally::new(&[CUTS]);
    let mut number = 0;
    while number < SIGNED {
        let fault = random.pick(&FAULTS[..FAULTS.len() - 1]);
        let (Made { pile, .. }, truth) = pile_with(&mut random, fault, Some(&servers));
        let Some(entries) = entries_of(&pile) else { continue };
        let text = text_of(&mut random, &entries);
        let before = vec![0xee; random.pick(&[1_000, LONGEST_REPORT])];
        let both = asking::cut_signed(&servers.ed25519, &text, &before);
        let due = match truth.run() {
            None => 18,
            Some(_) if before.len() < 2_000 => 19,
            Some(_) => 0,
        };
        tally.answer(CUTS, &both, Some(due), || format!("text {number}"));
        number += 1;
    }
    for (text, code) in [(&b"{}"[..], 24), (b"{\"responses\":[]}", 25)] {
        let both = asking::cut_signed(&servers.ed25519, text, &[]);
        tally.answer(CUTS, &both, Some(code), || "what is no report".into());
    }
    println!("{SIGNED} texts with signatures, cut with no answers lent; codes:");
    println!("{}", tally.table("code"));
    tally.no_difference();
    tally.at_least(10, CUTS, [0, 18, 19]);
    counted(tally.answers(), COUNTED);
}
