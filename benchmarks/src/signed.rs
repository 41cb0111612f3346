//! What is judged by its own signatures: a response, and full piles, all of whose signatures
//! verify, by the independent checker with its own Ed25519, and by the same checker with lent
//! answers, which OpenSSL gives it.
//!
//! The buffer that the cutter writes into is not cleared between runs.

use crate::openssl;
use crate::piles::{Operation, Shape, FULL};
use crate::run::{Line, Run};
use crate::sides::{work, Side, Subject, Work};
use crate::table::{count, Columns, Table, MICROSECONDS};
use independent::ed25519::Ed25519;
use independent::pieces::{put, Pieces};
use independent::pile::{self, RECORD};
use independent::signing::{self, Keys};
use independent::tag::{MAXT, NONC, RADI, ROOT};
use independent::{check, report, signed};
use std::hint::black_box;

/// A server's response to a request.
pub struct Exchange {
    pub request: Vec<u8>,
    pub response: Vec<u8>,
}

/// Who signs.
pub struct Signer {
    pub ed25519: Ed25519,
    pub keys: Keys,
}

impl Signer {
    pub fn new() -> Self {
        let ed25519 = Ed25519::new();
        let keys = Keys::new(&ed25519, [1; 32], [2; 32]);
        Signer { ed25519, keys }
    }

    /// The pile of this shape, each record signed.
    pub fn pile(&self, shape: Shape) -> Vec<u8> {
        signing::chain(&self.ed25519, &shape.links(), |_| &self.keys)
    }

    /// A signed response with so many siblings, refused with this code or valid.
    pub fn exchange(&self, siblings: usize, code: u32) -> Exchange {
        let packet = if siblings == 0 { 1036 } else { FULL.packet };
        let shape = Shape { records: 1, siblings, packet };
        let mut link = shape.links().swap_remove(0);
        link.key = self.keys.long_term.public;
        link.response_size = if siblings == 0 { 0 } else { packet };
        let request = link.request(&[]);
        let mut pieces = link.response(&request, &[]);
        break_rule(&mut pieces, code);
        self.keys.sign(&self.ed25519, &mut pieces);
        // Signed, and then another text: the whole equation is worked out, and does not hold.
        match code {
            12 => put(&mut pieces.dele, MAXT, &u64::MAX.wrapping_sub(1).to_le_bytes()),
            13 => put(&mut pieces.srep, RADI, &11u32.to_le_bytes()),
            _ => (),
        }
        Exchange { request, response: pieces.packet() }
    }

    /// The check of a response by all sides.
    fn response(&self, siblings: usize) -> Subject<'static> {
        let (key, ed25519) = (self.keys.long_term.public, self.ed25519);
        let [ours, theirs, third] = [(); 3].map(|_| self.exchange(siblings, 0));
        let length = ours.response.len();
        assert!(trawlbeacon::check_signed(&key, &ours.request, &ours.response).is_ok());
        let ours = work(move || trawlbeacon::check_signed(&key, &ours.request, &ours.response));
        let theirs = work(move || signed::check(&ed25519, &key, &theirs.request, &theirs.response));
        let third = work(move || {
            let [delegation, signature] = openssl::answers(&key, &third.response);
            check::check(&third.request, &third.response, delegation, signature)
        });
        let name = format!("a response of {} bytes, {siblings} siblings", count(length));
        of_three(name, length, [ours, theirs, third])
    }

    /// An operation on a pile by all sides.
    fn subject<'a>(&'a self, name: &str, operation: Operation, pile: &'a [u8]) -> Subject<'a> {
        let works = [
            ours(operation, pile),
            independents(&self.ed25519, operation, pile),
            fed(operation, pile),
        ];
        of_three(name.into(), pile.len(), works)
    }
}

/// Ours, the independent checker by itself, and the same with OpenSSL's answers.
fn of_three(name: String, length: usize, works: [Work; 3]) -> Subject {
    let [ours, independent, fed] = works;
    let mut works = vec![(Side::Ours, ours), (Side::Independent, independent)];
    if openssl::LINKED {
        works.push((Side::OpenSsl, fed));
    }
    Subject::new(name, length, works)
        .held(Side::Independent, "signed")
        .held(Side::OpenSsl, "openssl_signed")
}

/// Makes a response break a rule before it is signed.
fn break_rule(pieces: &mut Pieces, code: u32) {
    match code {
        9 => put(&mut pieces.outer, NONC, &[0; 32]),
        10 => put(&mut pieces.srep, ROOT, &[0; 32]),
        11 => put(&mut pieces.dele, MAXT, &[0; 8]),
        _ => (),
    }
}

pub fn ours(operation: Operation, pile: &[u8]) -> Work<'_> {
    let mut out = vec![0; pile.len()];
    work(move || {
        let pile = black_box(pile);
        if operation.has(Operation::Verdicts) {
            for place in 0..pile.len() / RECORD {
                let _ = black_box(trawlbeacon::judge_signed(pile, place));
            }
        }
        let pair = operation.has(Operation::Report).then(|| trawlbeacon::check_signed_report(pile));
        let run =
            operation.has(Operation::Cutter).then(|| trawlbeacon::cut_signed_run(pile, &mut out));
        black_box(&out);
        (pair, run)
    })
}

fn independents<'a>(ed25519: &'a Ed25519, operation: Operation, pile: &'a [u8]) -> Work<'a> {
    let mut out = vec![0; pile.len()];
    work(move || {
        let pile = black_box(pile);
        if operation.has(Operation::Verdicts) {
            let _ = black_box(signed::judge_all(ed25519, pile));
        }
        let pair = operation.has(Operation::Report).then(|| signed::check_report(ed25519, pile));
        let run = operation.has(Operation::Cutter).then(|| signed::cut(ed25519, pile, &mut out));
        black_box(&out);
        (pair, run)
    })
}

/// OpenSSL is asked anew for each operation, as the others verify anew.
fn fed(operation: Operation, pile: &[u8]) -> Work<'_> {
    let mut out = vec![0; pile.len()];
    work(move || {
        let pile = black_box(pile);
        if operation.has(Operation::Verdicts) {
            let _ = black_box(pile::judge_all(pile, &openssl::all_answers(pile)));
        }
        let pair = operation
            .has(Operation::Report)
            .then(|| report::check(pile, &openssl::all_answers(pile)));
        let run = operation
            .has(Operation::Cutter)
            .then(|| report::cut(pile, &openssl::all_answers(pile), &mut out));
        black_box(&out);
        (pair, run)
    })
}

/// Of the libraries of others OpenSSL alone: its answers are lent to the independent checker.
const COLUMNS: Columns =
    Columns { sides: &[Side::Ours, Side::Independent, Side::OpenSsl], ..MICROSECONDS };

/// A response, and the full pile in all that is done with it.
pub fn part(run: &mut Run) {
    let signer = Signer::new();
    let pile = signer.pile(FULL);
    assert!(trawlbeacon::check_signed_report(&pile).is_ok(), "it is a report");
    let title = "judged by its own signatures, all of which verify; full packets and paths";
    let table = Table::new("signed", title, &["By its own signatures"]);
    let responses = [0, 32].map(|siblings| signer.response(siblings));
    let piles = Operation::ALL.map(|operation| {
        let name = format!("16 records, {}", operation.name());
        signer.subject(&name, operation, &pile)
    });
    run.table(table, &COLUMNS, responses.into_iter().chain(piles).collect());
    by_records(run, &signer);
}

/// How the time of the whole grows with the records, for the picture.
fn by_records(run: &mut Run, signer: &Signer) {
    let mut lines = [
        ("ours, signatures verified", Side::Ours),
        ("independent, signatures verified", Side::Independent),
    ]
    .map(|(name, side)| (Line { chart: "records", name, points: Vec::new() }, side));
    for records in [1, 2, 4, 8, 16] {
        let pile = signer.pile(Shape { records, ..FULL });
        let measured = run.time(signer.subject("fewer records", Operation::Whole, &pile));
        for (line, side) in &mut lines {
            line.points.extend(measured.time(*side).map(|time| (records as f64, time)));
        }
    }
    run.lines.extend(lines.map(|(line, _)| line));
}
