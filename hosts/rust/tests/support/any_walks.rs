//! The measuring walk, from states that a walk could be in and from states of any bytes.

use crate::any_answers::{Answer, RECORD, REQUEST};
use crate::any_exports::{export, Codes, Export, Stack::Least, Stack::Verify};
use crate::any_trial::{Copies, Id, Trial, Use};
use crate::support::walks::{made_up, unstarted};
use independent::pile;
use trawlbeacon::raw::{self, tb_walk};

/// The codes of taking a response, and the outcomes.
const TAKING: &[Codes] =
    &[(1, 13), (19, 19), (26, 28), (OUTCOME + raw::TB_GOES_ON, OUTCOME + raw::TB_PILE_ALTERED)];

pub const EXPORTS: &[Export] = &[
    export("tb_walk_start_fields", Least, 40_000, &[(0, 0), (19, 19), (31, 31)], start),
    export("tb_walk_ask_fields", Least, 60_000, &[(0, 0), (19, 19), (28, 28)], ask),
    export("tb_walk_take_fields", Least, 20_000, TAKING, take),
    export("tb_walk_take_signed_fields", Verify, 4_000, TAKING, take_signed),
];

/// A state, the pile so far with room for the rest, and the response that is due.
struct Step {
    walk: tb_walk,
    pile: Vec<u8>,
    response: Vec<u8>,
}

/// A step of a walk that was gone: the pile of the whole walk tells all that a state has.
fn gone(t: &mut Trial) -> Step {
    let walks = &t.make.real.walks;
    let few = if t.make.random.once_in(8) { walks.len() } else { 3 };
    let mut pile = walks[t.make.random.below(few)].clone();
    let records = pile::records(&pile).expect("it is a pile");
    let last = records.len() - 1;
    let step = if t.make.random.once_in(3) { last } else { t.make.random.below(last + 1) };
    let mut walk = unstarted(&mut t.make.random);
    walk.keys.fill(0);
    (walk.count, walk.step) = (records.len() as u64 / 2, step as u64);
    for (record, key) in records.iter().take(records.len() / 2).zip(walk.keys.chunks_mut(32)) {
        key.copy_from_slice(record.key());
    }
    let (request, response) = records[step].packets().expect("they are whole");
    walk.nonce = independent::request::read(request).expect("it is a request").nonc;
    (walk.rand, walk.last, walk.most) = (*records[step].rand(), 1_000, 10);
    let response = response.to_vec();
    pile[RECORD * step..].fill(0xee);
    Step { walk, pile, response }
}

/// Such a step, of which now and then something is another.
fn step(t: &mut Trial) -> Step {
    let Step { mut walk, mut pile, response } = gone(t);
    let other = &t.make.real.exchanges[t.make.random.below(20)].response;
    let response = match t.make.random.below(3) {
        0 => t.make.near(&response, other),
        _ => t.make.mostly(&response, other),
    };
    match t.make.random.below(12) {
        0 => walk = made_up(&mut t.make.random),
        1 => walk = unstarted(&mut t.make.random),
        2 => pile.truncate(t.make.room(pile.len()).min(pile.len())),
        3 => pile[t.make.random.below(RECORD)] ^= 1,
        4 => walk.keys = t.make.array(),
        5 => walk.nonce = t.make.array(),
        _ => (),
    }
    Step { walk, pile, response }
}

fn start(t: &mut Trial) {
    let (walk, all) = (unstarted(&mut t.make.random), &t.make.real.servers);
    let count = t.make.random.pick(&[0, 1, 2, 3, 3, 4, 5, 8, 8, 9]);
    let one = |place: usize| &all[64 * (place % 8)..64 * (place % 8) + 32];
    let servers: Vec<u8> = (0..count).flat_map(one).copied().collect();
    let servers = t.make.mostly(&servers, all);
    let (nonce, longest) = (t.make.array::<32>(), t.make.number());
    let room = t.make.room(2 * RECORD * count);
    let pile = t.make.bytes(room);
    let arrays = [&walk.keys[..], &walk.nonce, &walk.rand];
    let [keys, first, rand] = arrays.map(|bytes| t.lend(Use::State, bytes.to_vec()));
    let numbers = [walk.count, walk.step, walk.last, walk.most];
    let [count, step, last, most] = numbers.map(|number| t.numbers(Use::State, &[number]));
    let (servers, nonce, pile) = (t.read(servers), t.read(nonce), t.read(pile));
    t.call(|c| {
        let code = unsafe {
            raw::tb_walk_start_fields(
                c.array(keys),
                c.number(count),
                c.number(step),
                c.array(first),
                c.array(rand),
                c.number(last),
                c.number(most),
                c.at(servers),
                c.len(servers),
                c.array(nonce),
                longest,
                c.at(pile),
                c.len(pile),
            )
        };
        Answer::code(code)
    });
}

fn ask(t: &mut Trial) {
    let Step { walk, .. } = step(t);
    let tb_walk { count, step, last, most, .. } = walk;
    let room = t.make.room(REQUEST);
    let [keys, nonce, rand] = [&walk.keys[..], &walk.nonce, &walk.rand].map(|bytes| t.read(bytes));
    let out = t.out(room);
    t.call(|c| {
        let (keys, nonce, rand) = (c.array(keys), c.array(nonce), c.array(rand));
        let (out, length) = (c.out(out), c.len(out));
        unsafe { raw::tb_walk_ask_fields(keys, count, step, nonce, rand, last, most, out, length) }
            .into()
    });
}

/// What the two forms of taking are both lent.
struct Taken {
    walk: tb_walk,
    keys: Id,
    nonce: Id,
    rand: Id,
    step: Id,
    last: Id,
    next: Id,
    response: Id,
    pile: Id,
    sent: u64,
    received: u64,
}

fn lend(t: &mut Trial) -> Taken {
    let Step { walk, pile, response } = step(t);
    let later = |t: &mut Trial| t.make.random.pick(&[0, 0, 0, 1, 10, 11]);
    let sent = walk.last.wrapping_add(later(t));
    let received = sent.wrapping_add(later(t)).wrapping_sub(t.make.random.pick(&[0, 0, 0, 1]));
    let sent = if t.make.random.once_in(12) { t.make.number() } else { sent };
    let next = t.make.array::<32>();
    Taken {
        walk,
        keys: t.read(walk.keys),
        nonce: t.lend(Use::State, walk.nonce.into()),
        rand: t.lend(Use::State, walk.rand.into()),
        step: t.numbers(Use::State, &[walk.step]),
        last: t.numbers(Use::State, &[walk.last]),
        next: t.read(next),
        response: t.read(response),
        pile: t.lend(Use::Pile, pile),
        sent,
        received,
    }
}

/// How the walk stands is counted as so much more than its number.
const OUTCOME: u32 = 100;

/// The record of the step is what was written.
fn taken(walk: &tb_walk, told: raw::tb_took) -> Answer {
    let at = RECORD * walk.step.min(16) as usize;
    let answer = Answer::from(told).wrote(at..at + RECORD);
    let said = if answer.refused { told.code } else { OUTCOME + told.outcome };
    Answer { said, ..answer }
}

fn take(t: &mut Trial) {
    let lent = lend(t);
    let (delegation, signature) = (t.make.answer(), t.make.answer());
    t.call(|c: &Copies| {
        let told = unsafe {
            raw::tb_walk_take_fields(
                c.array(lent.keys),
                lent.walk.count,
                c.number(lent.step),
                c.array(lent.nonce),
                c.array(lent.rand),
                c.number(lent.last),
                lent.walk.most,
                delegation,
                signature,
                lent.sent,
                lent.received,
                c.array(lent.next),
                c.at(lent.response),
                c.len(lent.response),
                c.out(lent.pile),
                c.len(lent.pile),
            )
        };
        taken(&lent.walk, told)
    });
}

fn take_signed(t: &mut Trial) {
    let lent = lend(t);
    t.call(|c: &Copies| {
        let told = unsafe {
            raw::tb_walk_take_signed_fields(
                c.array(lent.keys),
                lent.walk.count,
                c.number(lent.step),
                c.array(lent.nonce),
                c.array(lent.rand),
                c.number(lent.last),
                lent.walk.most,
                lent.sent,
                lent.received,
                c.array(lent.next),
                c.at(lent.response),
                c.len(lent.response),
                c.out(lent.pile),
                c.len(lent.pile),
            )
        };
        taken(&lent.walk, told)
    });
}
