//! How many verifications a call makes, by its time in verifications of one delegation: none where
//! something cheaper refuses.

use crate::limits;
use crate::piles::{Operation, FULL};
use crate::refused::damaged;
use crate::run::Run;
use crate::sides::{work, Side, Subject, Work};
use crate::signed::{self, Exchange, Signer};
use crate::table::{microseconds, Table};
use independent::text;
use std::hint::black_box;

/// What is timed: its name, how many verifications it has to make, how many records or responses it
/// reads, and one call.
struct Call<'a> {
    name: String,
    made: u32,
    records: u32,
    ours: Work<'a>,
}

impl Signer {
    /// One verification, of a delegation as it stands in these responses.
    fn verification(&self) -> Work<'_> {
        let dele = independent::respond::dele(&self.keys.delegated.public, 0, u64::MAX);
        let text = [text::DELEGATION, &dele].concat();
        let signature = self.ed25519.sign(&self.keys.long_term, &text);
        let key = self.keys.long_term.public;
        work(move || trawlbeacon::verify(black_box(&key), &text, &signature))
    }

    /// A response that is refused with this code, or valid.
    fn refused(&self, code: u32, made: u32) -> Call<'static> {
        let key = self.keys.long_term.public;
        let Exchange { request, response } = self.exchange(32, code);
        let told = trawlbeacon::check_signed(&key, &request, &response);
        assert_eq!(told.map_or_else(|why| why.code(), |_| 0), code);
        let name = match code {
            0 => "a valid response".into(),
            _ => format!("a response refused with {code}"),
        };
        let ours = work(move || trawlbeacon::check_signed(&key, &request, &response));
        Call { name, made, records: 1, ours }
    }
}

fn on_pile<'a>(operation: Operation, what: &str, made: u32, pile: &'a [u8]) -> Call<'a> {
    let name = format!("{}, {what}", operation.name());
    Call { name, made, records: 16, ours: signed::ours(operation, pile) }
}

/// Times calls, and tells each in verifications.
pub fn part(run: &mut Run) {
    let signer = Signer::new();
    let good = signer.pile(FULL);
    let damaged = |places: fn(usize) -> bool| damaged(&good, places);
    let [ninth, first] = [damaged(|place| place == 8), damaged(|place| place == 0)];
    let [second, all] = [damaged(|place| place % 2 == 0), damaged(|_| true)];
    let codes = [(0, 2), (9, 0), (10, 0), (11, 0), (12, 1), (13, 2)];
    let mut calls: Vec<Call> =
        codes.into_iter().map(|(code, made)| signer.refused(code, made)).collect();
    // The check of a report verifies nothing behind the first record that is refused.
    calls.extend([
        on_pile(Operation::Report, "16 valid", 32, &good),
        on_pile(Operation::Report, "the ninth damaged", 16, &ninth),
        on_pile(Operation::Report, "the first damaged", 0, &first),
        on_pile(Operation::Cutter, "16 valid", 32, &good),
        on_pile(Operation::Cutter, "every second damaged", 16, &second),
        on_pile(Operation::Cutter, "all damaged", 0, &all),
    ]);
    tell(run, &signer, calls);
}

fn tell(run: &mut Run, signer: &Signer, calls: Vec<Call>) {
    let title = "the verifications that a call makes; one is of a delegation";
    let head = ["Call", "has to verify", "µs", "in verifications"];
    let mut table = Table::new("counted", title, &head);
    for Call { name, made, records, ours } in calls {
        let works = vec![(Side::Ours, ours), (Side::Verification, signer.verification())];
        let subject = Subject::new(name, 0, works).held_to(
            Side::Verification,
            "verifications",
            limits::verifications(made, records),
        );
        let measured = run.time(subject);
        let verified = measured.ratio(Side::Verification).expect("it was timed");
        let cells = [made.to_string(), microseconds(measured.ours()), format!("{verified:.2}")];
        table.row(std::iter::once(measured.name).chain(cells).collect());
    }
    run.put(table);
}
