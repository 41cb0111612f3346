//! Calls that break a rule each, written in Rust in the place of an export, to see that a run would
//! tell. Each is run in a process of its own, since some of them do not come back.

use crate::any_answers::Answer;
use crate::any_exports::{export, Export, Stack::Least};
use crate::any_real::Real;
use crate::any_run::{run_alone, Plan};
use crate::any_trial::{Copies, Id, Trial};
use std::cell::Cell;
use std::env;
use std::hint::black_box;
use std::process::{Command, Output};

/// Names the wrong call to the process that is to make it.
const WRONG: &str = "TRAWLBEACON_WRONG";

/// The calls, and what is said of each; nothing where the machine stops it.
const ALL: &[(Export, &str)] = &[
    (wrong("writes on a refusal", refusing), "had to stay"),
    (wrong("writes behind what it says", behind), "had to stay"),
    (wrong("writes to an input", to_input), "had to stay"),
    (wrong("writes in front of a buffer", in_front), "written beside"),
    (wrong("says that it wrote more than there is room for", too_much), "than there is room for"),
    (wrong("answers with a code that is not named", other_code), "no such code"),
    (wrong("has a field beside a refusal", other_field), "no zeros"),
    (wrong("has a place beside a code that has none", other_place), "at"),
    (wrong("answers otherwise the second time", otherwise), "has another answer"),
    (wrong("goes by what stood in the buffer", by_buffer), "has another answer"),
    (wrong("writes what it is not told to", by_address), "writes other bytes"),
    (wrong("reads past the end", past_end), ""),
    (wrong("reads before the start", before_start), ""),
    (wrong("takes more stack than it may", too_deep), ""),
];

/// A call that breaks no rule, lest all of them fail for another reason.
const RIGHT: Export = wrong("breaks no rule", right);

const fn wrong(name: &'static str, call: fn(&mut Trial)) -> Export {
    export(name, Least, 4, &[(0, 1), (14, 14)], call)
}

fn put(c: &Copies, id: Id, at: isize, byte: u8) {
    // SAFETY: none for those that are to be stopped, which is why they have a process of their own.
    unsafe { c.out(id).offset(at).write_volatile(byte) }
}

fn get(c: &Copies, id: Id, at: isize) -> u8 {
    // SAFETY: as above.
    unsafe { c.at(id).offset(at).read_volatile() }
}

/// Eight bytes to read, and eight to write.
fn two(t: &mut Trial) -> (Id, Id) {
    (t.read([7; 8]), t.out(8))
}

fn right(t: &mut Trial) {
    let (input, out) = two(t);
    t.call(|c| {
        (0..4).for_each(|at| put(c, out, at, get(c, input, at)));
        Answer::whole(4)
    });
}

fn refusing(t: &mut Trial) {
    let (_, out) = two(t);
    t.call(|c| {
        put(c, out, 0, !get(c, out, 0));
        Answer::code(14)
    });
}

fn behind(t: &mut Trial) {
    let (_, out) = two(t);
    t.call(|c| {
        (0..5).for_each(|at| put(c, out, at, !get(c, out, at)));
        Answer::whole(4)
    });
}

fn to_input(t: &mut Trial) {
    let (input, _) = two(t);
    t.call(|c| {
        put(c, input, 3, 0);
        Answer::code(0)
    });
}

fn in_front(t: &mut Trial) {
    let (_, out) = two(t);
    t.call(|c| {
        put(c, out, -1, 0);
        Answer::code(0)
    });
}

fn too_much(t: &mut Trial) {
    two(t);
    t.call(|_| Answer::whole(9));
}

fn other_code(t: &mut Trial) {
    t.call(|_| Answer::code(2));
}

fn other_field(t: &mut Trial) {
    t.call(|_| Answer { others: vec![0, 1], ..Answer::code(14) });
}

fn other_place(t: &mut Trial) {
    two(t);
    t.call(|_| Answer { at: 4, ..Answer::code(14) });
}

fn otherwise(t: &mut Trial) {
    let calls = Cell::new(0);
    t.call(|_| Answer::yes_or_no(calls.replace(1) == 1));
}

fn by_buffer(t: &mut Trial) {
    let (_, out) = two(t);
    t.call(|c| Answer::yes_or_no(get(c, out, 0) % 2 == 1));
}

/// What is written hangs on where it is written.
fn by_address(t: &mut Trial) {
    let (_, out) = two(t);
    t.call(|c| {
        put(c, out, 0, (c.at(out) as usize >> 3) as u8);
        Answer::whole(1)
    });
}

fn past_end(t: &mut Trial) {
    let (input, _) = two(t);
    t.call(|c| Answer::code(u32::from(get(c, input, 8)) % 2));
}

/// The second call of a case begins at the fence.
fn before_start(t: &mut Trial) {
    let (input, _) = two(t);
    t.call(|c| Answer::yes_or_no(get(c, input, -1) == 0));
}

fn too_deep(t: &mut Trial) {
    t.call(|_| Answer::yes_or_no(black_box([0u8; 96 << 10])[black_box(5)] == 1));
}

/// Makes the wrong call that the environment names, if it names one.
pub fn make() {
    let Ok(name) = env::var(WRONG) else { return };
    let mut all = ALL.iter().map(|(export, _)| export).chain([&RIGHT]);
    let export = all.find(|export| export.name == name).expect("there is such a call");
    let plan = Plan::usual();
    run_alone(export, &plan, &Real::new(&mut plan.random("what is real")));
}

/// What this program says where its test of that name makes a wrong call.
fn made(test: &str, name: &str) -> Output {
    let program = env::current_exe().expect("it is being run");
    let arguments = ["--exact", "--ignored", "--nocapture", test];
    let mut command = Command::new(program);
    command.args(arguments).env(WRONG, name).env("RUST_BACKTRACE", "0");
    command.output().expect("it can be run again")
}

/// The status of a test program in which a test failed.
const FAILED: i32 = 101;

/// Each wrong call is caught, for its own reason.
pub fn are_caught(test: &str) {
    assert!(made(test, RIGHT.name).status.success(), "a right call is not let pass");
    for (Export { name, .. }, said) in ALL {
        let Output { status, stderr, .. } = made(test, name);
        let stderr = String::from_utf8_lossy(&stderr);
        let caught = match (*said, status.code()) {
            ("", code) => code != Some(0) && code != Some(FAILED),
            (said, code) => code == Some(FAILED) && stderr.contains(said),
        };
        assert!(caught, "a call that {name} ends with {status}:\n{stderr}");
    }
    println!("{} wrong calls are caught", ALL.len());
}
