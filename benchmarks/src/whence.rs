//! Where the time goes: the instructions of some calls, by the crate whose function they stand in,
//! as callgrind counts them.
//!
//! Callgrind runs this program once more for each call, with `--once` and its name. What the
//! compiler drew into another function is counted there. What is in none of our crates is copying
//! by libc, and the few instructions of the Rust host around each call.

use crate::piles::{self, Operation, Task, FULL};
use crate::run::Run;
use crate::servers::Round;
use crate::sides::Work;
use crate::signed::{self, Signer};
use crate::table::{number, Table};
use crate::texts::{self, Report};
use std::collections::BTreeMap;
use std::process::{Command, Stdio};
use std::{env, fs};

/// The word by which this program is told to make one call and end.
pub const ONCE: &str = "--once";

/// The calls, by the names of their columns.
const CALLS: [&str; 5] = ["pile", "signed pile", "JSON read", "JSON written", "batch"];

/// Crates that belong together, in the order of crates.txt. What is in none of them is a row of its
/// own.
const GROUPS: [(&str, &[&str]); 6] = [
    ("SHA-512 (`sha512_block`, `sha512`, `hash`)", &["sha512_block", "sha512", "hash"]),
    ("trees (`tree`, `tree_build`)", &["tree", "tree_build"]),
    (
        "Ed25519",
        &[
            "digits",
            "choices",
            "ed25519_field",
            "ed25519_scalar",
            "ed25519_curve",
            "ed25519_point",
            "ed25519_windows",
            "ed25519_base",
            "ed25519",
            "ed25519_sign",
        ],
    ),
    (
        "packets",
        &[
            "wire_message",
            "wire_packet",
            "wire_request",
            "server_parts",
            "server_response",
            "check_response",
        ],
    ),
    (
        "piles",
        &["pile", "pile_runs", "pile_report", "pile_tally", "pile_signed", "walk", "walk_signed"],
    ),
    (
        "JSON",
        &[
            "base64_strict",
            "json_tokens",
            "json_strings",
            "json_values",
            "json_base64",
            "json_text",
            "json_quote",
            "report_read",
            "report_write",
            "report_text",
            "list_address",
            "list_read",
            "list_parts",
            "list_write",
        ],
    ),
];

const REST: &str = "bytes, the boundary, copying";

/// Makes one call, for callgrind.
pub fn once(name: &str) {
    let (made, signer) = (FULL.made(), Signer::new());
    let pile = signer.pile(FULL);
    let (report, round) = (Report::of(FULL.records), Round::new(900));
    let [read, _] = texts::read(&report.text);
    let [write, _] = report.write();
    let task = Task { operation: Operation::Whole, cleared: false };
    let calls: [Work; 5] = [
        piles::ours(task, &made),
        signed::ours(Operation::Whole, &pile),
        read,
        write,
        round.whole(),
    ];
    let place = CALLS.iter().position(|call| *call == name).expect("there is such a call");
    bench_counted(&mut calls.into_iter().nth(place).expect("there is such a call"));
}

/// What callgrind counts within. The name is kept as it is, so that it can be told it.
#[no_mangle]
#[inline(never)]
pub fn bench_counted(call: &mut Work) {
    call();
}

/// The instructions of a call by function. Inclusive costs, which follow a line `calls=`, are left
/// out.
fn read(profile: &str) -> BTreeMap<String, u64> {
    let (mut costs, mut function, mut skip) = (BTreeMap::new(), String::new(), false);
    for line in profile.lines() {
        if let Some(name) = line.strip_prefix("fn=") {
            function = name.to_string();
        } else if line.starts_with("calls=") {
            skip = true;
        } else if line.starts_with(|first: char| first.is_ascii_digit() || "+-*".contains(first)) {
            let cost = line.split_whitespace().nth(1).and_then(|cost| cost.parse::<u64>().ok());
            if !std::mem::take(&mut skip) {
                *costs.entry(function.clone()).or_insert(0) += cost.unwrap_or(0);
            }
        }
    }
    costs
}

/// The row that a function is counted in.
fn row(function: &str) -> &'static str {
    let of = function.split_once("::").map_or("", |(start, _)| start);
    let group = GROUPS.iter().find(|(_, crates)| crates.contains(&of));
    group.map_or(REST, |(name, _)| name)
}

/// The instructions of a call by row, or nothing where there is no valgrind.
fn profile(call: &str) -> Option<BTreeMap<&'static str, u64>> {
    let out = format!("build/callgrind.{}", call.replace(' ', "-"));
    let status = Command::new("valgrind")
        .args(["--tool=callgrind", "--toggle-collect=bench_counted", "--collect-atstart=no"])
        .args(["--compress-strings=no", "--compress-pos=no", "--quiet"])
        .arg(format!("--callgrind-out-file={out}"))
        .arg(env::current_exe().ok()?)
        .args([ONCE, call])
        .stdout(Stdio::null())
        .stderr(Stdio::null())
        .status()
        .ok()?;
    let mut rows = BTreeMap::new();
    for (function, cost) in read(&fs::read_to_string(&out).ok().filter(|_| status.success())?) {
        *rows.entry(row(&function)).or_insert(0) += cost;
    }
    Some(rows)
}

pub fn part(run: &mut Run) {
    let profiles: Option<Vec<_>> = CALLS.iter().map(|call| profile(call)).collect();
    let Some(profiles) = profiles else {
        return run.say("whence", "Where the time goes was not counted: there is no valgrind.");
    };
    let title = "instructions of one call in hundredths, counted by callgrind";
    let head: Vec<&str> = std::iter::once("Instructions, %").chain(CALLS).collect();
    let mut table = Table::new("whence", title, &head);
    let sums: Vec<f64> = profiles.iter().map(|rows| rows.values().sum::<u64>() as f64).collect();
    for name in GROUPS.iter().map(|(name, _)| *name).chain([REST]) {
        let share = |(rows, sum): (&BTreeMap<_, u64>, &f64)| {
            number(100.0 * *rows.get(name).unwrap_or(&0) as f64 / sum, 1)
        };
        let shares = profiles.iter().zip(&sums).map(share);
        table.row(std::iter::once(name.to_string()).chain(shares).collect());
    }
    let sums = sums.iter().map(|sum| number(sum / 1e6, 2));
    table.row(std::iter::once("all, in millions".to_string()).chain(sums).collect());
    run.put(table);
}
