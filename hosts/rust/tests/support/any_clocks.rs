//! Clocks, from states that a host could come to and from states of any numbers.

use crate::any_answers::Answer;
use crate::any_exports::{export, Export, Stack::Least};
use crate::any_trial::{Id, Trial, Use};
use crate::support::clocks::{laid, made_up};
use independent::clock::{Clock, Heard};
use independent::course::{Course, Dice, Step};
use trawlbeacon::raw::{self, tb_clock};

pub const EXPORTS: &[Export] = &[
    export("tb_clock_start_fields", Least, 60_000, &[(0, 0), (32, 32)], start),
    export("tb_clock_take_fields", Least, 60_000, &[(0, 0), (26, 26), (32, 32)], take),
    export("tb_clock_now_fields", Least, 60_000, &[(0, 0), (26, 26), (33, 34)], now),
];

/// A state, the step that comes next, and what is asked.
struct Case {
    state: tb_clock,
    server: u64,
    heard: Heard,
    moment: u64,
    liars: u64,
}

/// What a client has come to in the middle of a course.
fn gone(t: &mut Trial) -> Case {
    let course = Course::draw(&mut Dice::new(t.make.random.next() | 1));
    let mut clock = Clock::start(course.drift).expect("it is below a million");
    let upto = t.make.random.below(course.steps.len() + 1);
    let (mut server, mut heard, mut moment, mut liars) = (0, Heard::default(), 0, 0);
    for (place, step) in course.steps.iter().enumerate() {
        match *step {
            Step::Take(from, said) => {
                (server, heard) = (from, said);
                if place < upto {
                    let _ = clock.take(from, said);
                }
            }
            Step::Ask(asked, may) => (moment, liars) = (asked, may),
        }
    }
    Case { state: laid(&clock), server, heard, moment, liars }
}

/// Such a case, of which now and then something is another.
fn case(t: &mut Trial) -> Case {
    let mut case = gone(t);
    match t.make.random.below(12) {
        0 | 1 => case.state = made_up(&mut t.make.random),
        2 => case.state.drift = t.make.word(),
        3 => case.state.received[t.make.random.below(16)] = t.make.number(),
        4 => case.server = t.make.number(),
        5 => case.heard.sent = t.make.number(),
        6 => case.moment = t.make.number(),
        7 => case.liars = t.make.number(),
        _ => (),
    }
    let last = case.state.received.iter().copied().max().expect("there are 16");
    if t.make.random.once_in(2) {
        case.moment = last.saturating_add(t.make.random.below(3) as u64);
    }
    case
}

fn arrays(t: &mut Trial, used: Use, state: &tb_clock) -> [Id; 5] {
    [&state.low, &state.high, &state.maxt, &state.sent, &state.received]
        .map(|numbers| t.numbers(used, numbers))
}

fn start(t: &mut Trial) {
    let Case { state, .. } = case(t);
    let any = t.make.word();
    let bound = t.make.random.pick(&[0, 100, 999_999, 1_000_000, any]);
    let drift = t.word(Use::State, state.drift);
    let [low, high, maxt, sent, received] = arrays(t, Use::State, &state);
    t.call(|c| {
        Answer::code(unsafe {
            raw::tb_clock_start_fields(
                c.word(drift),
                c.numbers(low),
                c.numbers(high),
                c.numbers(maxt),
                c.numbers(sent),
                c.numbers(received),
                bound,
            )
        })
    });
}

fn take(t: &mut Trial) {
    let Case { state, server, heard, .. } = case(t);
    let [low, high, maxt, sent, received] = arrays(t, Use::State, &state);
    t.call(|c| {
        Answer::code(unsafe {
            raw::tb_clock_take_fields(
                state.drift,
                c.numbers(low),
                c.numbers(high),
                c.numbers(maxt),
                c.numbers(sent),
                c.numbers(received),
                server,
                heard.low,
                heard.high,
                heard.maxt,
                heard.sent,
                heard.received,
            )
        })
    });
}

fn now(t: &mut Trial) {
    let Case { state, moment, liars, .. } = case(t);
    let [low, high, maxt, sent, received] = arrays(t, Use::Read, &state);
    t.call(|c| {
        unsafe {
            raw::tb_clock_now_fields(
                state.drift,
                c.numbers(low),
                c.numbers(high),
                c.numbers(maxt),
                c.numbers(sent),
                c.numbers(received),
                moment,
                liars,
            )
        }
        .into()
    });
}
