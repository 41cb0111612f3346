//! A run over the exports: how long it is, what its cases are made from, and in which threads.
//!
//! TRAWLBEACON_CALLS is about how many calls all exports together get, or 1/16 for a sixteenth of the
//! usual ones, of which digests are kept, too. TRAWLBEACON_SEED is the number that the cases are made
//! from, and TRAWLBEACON_EXPORT the one export that is to be called.

use crate::any_exports::{self, Export};
use crate::any_make::Maker;
use crate::any_real::Real;
use crate::any_trial::Trial;
use crate::support::guarded::least_stack;
use crate::support::{hex, Xorshift};
use independent::sha512::sha512;
use std::collections::BTreeMap;
use std::env;
use std::hint::black_box;
use std::sync::atomic::{AtomicUsize, Ordering};
use std::sync::Mutex;
use std::thread::{self, Builder};

/// Bytes of stack that a thread of Rust takes for itself and for making the cases, beside what an
/// export takes.
const THREAD: usize = 16 << 10;

/// The seed of the run that is kept.
pub const KEPT_SEED: u64 = 0x7472_6177_6c65_7221;

/// How long a run is, and what it is made from.
#[derive(Clone)]
pub struct Plan {
    pub seed: u64,
    pub calls: usize,
    pub only: Option<String>,
}

/// A number from the environment, in decimal.
fn number(name: &str) -> Option<u64> {
    let text = env::var(name).ok()?;
    Some(text.parse().unwrap_or_else(|_| panic!("{name} is no number: {text}")))
}

/// The calls of a run of the usual length: two for each case.
pub fn usual_calls() -> usize {
    any_exports::all().map(|export| 2 * export.cases).sum()
}

/// The calls of the shortest run of which digests are kept.
pub fn least_calls() -> usize {
    (usual_calls() + 15) / 16
}

/// How many calls the environment asks for.
fn calls() -> usize {
    if env::var("TRAWLBEACON_CALLS").is_ok_and(|text| text == "1/16") {
        return least_calls();
    }
    number("TRAWLBEACON_CALLS").map_or_else(usual_calls, |calls| calls as usize)
}

impl Plan {
    /// The run that is kept.
    pub fn usual() -> Self {
        Plan { seed: KEPT_SEED, calls: usual_calls(), only: None }
    }

    pub fn from_environment() -> Self {
        Plan {
            seed: number("TRAWLBEACON_SEED").unwrap_or(KEPT_SEED),
            calls: calls(),
            only: env::var("TRAWLBEACON_EXPORT").ok(),
        }
    }

    pub fn exports(&self) -> Vec<&'static Export> {
        let wanted = |export: &&Export| self.only.iter().all(|only| only == export.name);
        let exports: Vec<&Export> = any_exports::all().filter(wanted).collect();
        assert!(!exports.is_empty(), "there is no such export: {:?}", self.only);
        exports
    }

    fn cases(&self, export: &Export) -> usize {
        let share = export.cases as u128 * self.calls as u128 / usual_calls() as u128;
        share.max(1) as usize
    }

    /// Each export has its own cases, whichever others there are.
    pub fn random(&self, name: &str) -> Xorshift {
        let digest = sha512(&[&self.seed.to_le_bytes(), name.as_bytes()].concat());
        Xorshift::new(u64::from_le_bytes(digest[..8].try_into().expect("eight bytes")) | 1)
    }
}

/// What a run of one export came to.
pub struct Run {
    pub name: &'static str,
    pub cases: usize,
    pub seen: BTreeMap<u32, usize>,
    /// The digest after so many cases: those of a sixteenth of a usual run, and of the whole.
    pub digests: Vec<(usize, String)>,
}

/// Sixteen bytes are enough to tell runs apart.
fn short(digest: [u8; 64]) -> String {
    hex(&digest[..16])
}

fn run(export: &'static Export, plan: &Plan, real: &Real, case: &AtomicUsize) -> Run {
    let make = Maker { random: plan.random(export.name), real };
    let mut trial = Trial::new(make, export.answers());
    let cases = plan.cases(export);
    let mut digests = Vec::new();
    for done in 1..=cases {
        case.store(done, Ordering::Relaxed);
        (export.call)(&mut trial);
        if done == export.cases / 16 || done == export.cases {
            digests.push((done, short(trial.digest())));
        }
    }
    Run { name: export.name, cases, seen: trial.seen, digests }
}

/// Does the job further down the stack, where so many bytes of it are taken.
fn further_down<T>(top: usize, bytes: usize, job: &mut dyn FnMut() -> T) -> T {
    let some = black_box([0u8; 512]);
    if top.abs_diff(some.as_ptr() as usize) >= bytes {
        return job();
    }
    let done = further_down(top, bytes, job);
    black_box(&some);
    done
}

/// Runs an export in a thread with the stack that it may take and no more: where the C library
/// gives every thread more, the rest is taken first.
pub fn run_alone(export: &'static Export, plan: &Plan, real: &Real) -> Run {
    let (case, enough) = (&AtomicUsize::new(0), export.stack.bytes() + THREAD);
    let given = enough.max(least_stack());
    let thread = Builder::new().name(export.name.into()).stack_size(given);
    let ended = thread::scope(|scope| {
        let job = move || {
            let top = &case as *const _ as usize;
            further_down(top, given - enough, &mut || run(export, plan, real, case))
        };
        thread.spawn_scoped(scope, job).expect("a thread can be had").join()
    });
    ended.unwrap_or_else(|_| {
        let (name, seed) = (export.name, plan.seed);
        panic!("{name} failed at case {} of seed {seed}", case.load(Ordering::Relaxed))
    })
}

/// Runs all exports, as many at a time as the machine has processors.
pub fn run_all(plan: &Plan) -> Vec<Run> {
    let real = Real::new(&mut plan.random("what is real"));
    let (left, runs) = (Mutex::new(plan.exports()), Mutex::new(Vec::new()));
    let next = || left.lock().expect("nobody fails with it").pop();
    let work = || {
        while let Some(export) = next() {
            let run = run_alone(export, plan, &real);
            println!("{:>28} {:>7} calls, of {:?}", run.name, 2 * run.cases, run.seen);
            runs.lock().expect("nobody fails with it").push(run);
        }
    };
    let workers = thread::available_parallelism().map_or(1, usize::from);
    thread::scope(|scope| {
        for _ in 0..workers {
            scope.spawn(work);
        }
    });
    runs.into_inner().expect("all threads have ended")
}
