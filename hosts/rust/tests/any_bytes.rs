//! Any bytes, on the compiled code: every export of the header is called from Rust on any bytes, on
//! real ones and on damaged ones, in threads with the stack that the header says is enough.
//!
//! No call may touch a byte that it was not lent, write where the header says that it does not, or
//! answer with a code that the header does not name for it. What all calls of the kept run answer
//! and write must come to the digests that are kept, on every machine. `any_trial` says what is
//! held of each call, and `any_run` how to make longer runs. Where an export is new or its cases
//! are others, TRAWLBEACON_KEEP=1 keeps the digests of the run anew.

mod support;

#[path = "support/any_answers.rs"]
mod any_answers;
#[path = "support/any_batches.rs"]
mod any_batches;
#[path = "support/any_clocks.rs"]
mod any_clocks;
#[path = "support/any_exports.rs"]
mod any_exports;
#[path = "support/any_hashes.rs"]
mod any_hashes;
#[path = "support/any_header.rs"]
mod any_header;
#[path = "support/any_lists.rs"]
mod any_lists;
#[path = "support/any_make.rs"]
mod any_make;
#[path = "support/any_packets.rs"]
mod any_packets;
#[path = "support/any_piles.rs"]
mod any_piles;
#[path = "support/any_real.rs"]
mod any_real;
#[path = "support/any_run.rs"]
mod any_run;
#[path = "support/any_servers.rs"]
mod any_servers;
#[path = "support/any_signing.rs"]
mod any_signing;
#[path = "support/any_texts.rs"]
mod any_texts;
#[path = "support/any_trial.rs"]
mod any_trial;
#[path = "support/any_walks.rs"]
mod any_walks;
#[path = "support/any_wrong.rs"]
mod any_wrong;
#[path = "../shared/whole.rs"]
mod whole;

use any_run::{Plan, Run, KEPT_SEED};
use std::collections::{BTreeMap, BTreeSet};
use std::io::Read;
use std::path::{Path, PathBuf};
use std::{env, fs};
use whole::Existing;

#[test]
fn every_export_of_the_header_is_in_the_table() {
    let named: BTreeSet<String> = any_exports::all().map(|export| export.name.into()).collect();
    assert_eq!(any_exports::all().count(), named.len(), "one stands in the table twice");
    let exports = any_header::exports();
    let missing: Vec<&String> = exports.difference(&named).collect();
    let unknown: Vec<&String> = named.difference(&exports).collect();
    assert!(missing.is_empty() && unknown.is_empty(), "missing: {missing:?}, unknown: {unknown:?}");
    println!("{} exports are in the table", exports.len());
}

#[test]
fn a_call_that_breaks_a_rule_is_caught() {
    any_wrong::are_caught("a_wrong_call");
}

#[test]
#[ignore = "the test above runs it, in a process of its own"]
fn a_wrong_call() {
    any_wrong::make();
}

#[test]
fn no_bytes_do_harm() {
    let plan = Plan::from_environment();
    println!("seed {}, about {} calls", plan.seed, plan.calls);
    let mut runs = any_run::run_all(&plan);
    runs.sort_by_key(|run| run.name);
    let calls: usize = runs.iter().map(|run| 2 * run.cases).sum();
    println!("{calls} calls of {} exports", runs.len());
    // A longer run than the usual one has as many among its own.
    support::counted(calls.min(any_run::usual_calls()), "calls of the exports on any bytes");
    if plan.seed != KEPT_SEED {
        println!("the digests of this seed are not kept");
        return;
    }
    said_all_that_the_header_names(&plan, &runs);
    let whole = plan.only.is_none() && plan.calls >= any_run::usual_calls();
    if env::var_os("TRAWLBEACON_KEEP").is_none() {
        as_kept(&runs, whole, plan.calls >= any_run::least_calls());
    } else {
        assert!(whole, "only a whole run is kept");
        keep(&runs);
    }
}

/// A run of the usual length meets each code that the header names for an export.
fn said_all_that_the_header_names(plan: &Plan, runs: &[Run]) {
    for export in plan.exports() {
        let run = runs.iter().find(|run| run.name == export.name).expect("each was run");
        let mut missed = export.answers();
        missed.retain(|code| !run.seen.contains_key(code));
        let usual = run.cases >= export.cases;
        assert!(!usual || missed.is_empty(), "{} never said {missed:?}", run.name);
    }
}

fn file() -> PathBuf {
    Path::new(env!("CARGO_MANIFEST_DIR")).join("tests/any_bytes.digest")
}

/// A line for each digest: the export, the number of cases, and the digest.
fn lines(run: &Run) -> impl Iterator<Item = (String, String)> + '_ {
    run.digests.iter().map(|(cases, digest)| (format!("{} {cases}", run.name), digest.clone()))
}

fn keep(runs: &[Run]) {
    let text: String =
        runs.iter().flat_map(lines).map(|(of, digest)| format!("{of} {digest}\n")).collect();
    put(&file(), &text);
    println!("the digests of this run are kept from now on");
}

/// Whole or not at all, lest half of them be kept.
fn put(file: &Path, text: &str) {
    whole::write(file, text.as_bytes(), Existing::Replaced)
        .unwrap_or_else(|error| panic!("the digests: {error}"));
}

/// Who reads the old ones meanwhile reads them to their end: nothing is written over.
#[test]
fn what_is_kept_takes_the_place_of_the_old_in_one_step() {
    let folder = Path::new(env!("CARGO_TARGET_TMPDIR")).join("kept digests");
    fs::create_dir_all(&folder).expect("the folder of a test");
    let file = folder.join("digest");
    put(&file, "the old ones");
    let mut reader = fs::File::open(&file).expect("they are there");
    put(&file, "new");
    let mut old = String::new();
    reader.read_to_string(&mut old).expect("it is text");
    assert_eq!((&old[..], fs::read_to_string(&file).unwrap()), ("the old ones", "new".into()));
    assert_eq!(fs::read_dir(&folder).expect("it is there").count(), 1);
}

/// Where a run is long enough, each export has a digest to be compared.
fn as_kept(runs: &[Run], whole: bool, enough: bool) {
    let text = fs::read_to_string(file()).unwrap_or_else(|error| panic!("the digests: {error}"));
    let kept: BTreeMap<&str, &str> =
        text.lines().filter_map(|line| line.rsplit_once(' ')).collect();
    let (mut same, mut other) = (0, Vec::new());
    for (of, digest) in runs.iter().flat_map(lines) {
        match kept.get(of.as_str()) {
            Some(kept) if **kept == digest => same += 1,
            kept => other.push(format!("{of}: {digest}, and kept is {kept:?}")),
        }
    }
    assert!(other.is_empty(), "other answers than those that are kept:\n{}", other.join("\n"));
    assert!(!whole || same == kept.len(), "digests are kept of exports that are no more");
    assert!(!enough || same >= runs.len(), "nothing is compared of some exports");
    println!("{same} digests are as kept");
}
