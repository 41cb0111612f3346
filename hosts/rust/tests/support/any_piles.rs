//! Piles, with answers lent beside them and with none, and windows.

use crate::any_answers::Answer;
use crate::any_exports::{export, Export, Stack::Least, Stack::Verify, NOTHING, YES_OR_NO};
use crate::any_real::records;
use crate::any_trial::{Id, Trial, Use};
use trawlbeacon::raw;

pub const EXPORTS: &[Export] = &[
    export("tb_pile_code", Least, 60_000, &[(0, 0), (15, 15)], pile_code),
    export("tb_judge", Least, 40_000, &[(0, 16)], judge),
    export("tb_linked", Least, 40_000, YES_OR_NO, linked),
    export("tb_first_rand_zero", Least, 60_000, YES_OR_NO, first_rand_zero),
    export("tb_contradicts", Least, 100_000, YES_OR_NO, contradicts),
    export("tb_pile_contradicts", Least, 20_000, &[(0, 0), (15, 15), (18, 18)], pile_contradicts),
    export("tb_tally_start_field", Least, 100_000, NOTHING, tally_start),
    export("tb_tally_take_field", Least, 100_000, YES_OR_NO, tally_take),
    export("tb_check_report", Least, 20_000, &[(0, 18)], check_report),
    export("tb_cut_run", Least, 20_000, &[(0, 0), (15, 15), (18, 19)], cut_run),
    export("tb_judge_signed", Verify, 4_000, &[(0, 16)], judge_signed),
    export("tb_check_signed_report", Verify, 1_500, &[(0, 18)], check_signed_report),
    export("tb_cut_signed_run", Verify, 1_000, &[(0, 0), (15, 15), (18, 19)], cut_signed_run),
];

/// A pile and its answers.
pub fn both(t: &mut Trial) -> [Id; 2] {
    let pile = t.make.pile();
    let answers = t.make.answers(records(&pile));
    [t.read(pile), t.read(answers)]
}

fn pile_code(t: &mut Trial) {
    let [pile, answers] = both(t);
    t.call(|c| {
        let [pile, answers] = [pile, answers].map(|id| (c.at(id), c.len(id)));
        Answer::code(unsafe { raw::tb_pile_code(pile.0, pile.1, answers.0, answers.1) })
    });
}

fn judge(t: &mut Trial) {
    let [pile, answers] = both(t);
    let place = t.make.place(3);
    t.call(|c| {
        let [pile, answers] = [pile, answers].map(|id| (c.at(id), c.len(id)));
        let told = unsafe { raw::tb_judge(pile.0, pile.1, answers.0, answers.1, place) };
        assert_eq!(told.place, place as u64, "the place that was asked for");
        told.into()
    });
}

fn judge_signed(t: &mut Trial) {
    let (pile, place) = (t.make.pile(), t.make.place(3));
    let pile = t.read(pile);
    t.call(|c| {
        let told = unsafe { raw::tb_judge_signed(c.at(pile), c.len(pile), place) };
        assert_eq!(told.place, place as u64, "the place that was asked for");
        told.into()
    });
}

fn linked(t: &mut Trial) {
    let (pile, place) = (t.make.pile(), t.make.place(3));
    let pile = t.read(pile);
    t.call(|c| Answer::yes_or_no(unsafe { raw::tb_linked(c.at(pile), c.len(pile), place) }));
}

fn first_rand_zero(t: &mut Trial) {
    let pile = t.make.pile();
    let pile = t.read(pile);
    t.call(|c| Answer::yes_or_no(unsafe { raw::tb_first_rand_zero(c.at(pile), c.len(pile)) }));
}

fn contradicts(t: &mut Trial) {
    let (earlier, later) = (t.make.number(), t.make.number());
    let (earlier_radi, later_radi) = (t.make.word(), t.make.word());
    t.call(|_| {
        let said = unsafe { raw::tb_contradicts(earlier, earlier_radi, later, later_radi) };
        Answer::yes_or_no(said)
    });
}

fn pile_contradicts(t: &mut Trial) {
    let [pile, answers] = both(t);
    t.call(|c| {
        let [pile, answers] = [pile, answers].map(|id| (c.at(id), c.len(id)));
        Answer::code(unsafe { raw::tb_pile_contradicts(pile.0, pile.1, answers.0, answers.1) })
    });
}

fn tally_start(t: &mut Trial) {
    let most = t.make.number();
    let most = t.numbers(Use::State, &[most]);
    t.call(|c| {
        unsafe { raw::tb_tally_start_field(c.number(most)) };
        Answer::code(0)
    });
}

fn tally_take(t: &mut Trial) {
    let (most, midp, radi) = (t.make.number(), t.make.number(), t.make.word());
    let most = t.numbers(Use::State, &[most]);
    t.call(|c| Answer::yes_or_no(unsafe { raw::tb_tally_take_field(c.number(most), midp, radi) }));
}

fn check_report(t: &mut Trial) {
    let [pile, answers] = both(t);
    t.call(|c| {
        let [pile, answers] = [pile, answers].map(|id| (c.at(id), c.len(id)));
        unsafe { raw::tb_check_report(pile.0, pile.1, answers.0, answers.1) }.into()
    });
}

fn check_signed_report(t: &mut Trial) {
    let pile = t.make.pile();
    let pile = t.read(pile);
    t.call(|c| unsafe { raw::tb_check_signed_report(c.at(pile), c.len(pile)) }.into());
}

fn cut_run(t: &mut Trial) {
    let pile = t.make.pile();
    let (answers, room) = (t.make.answers(records(&pile)), t.make.room(pile.len()));
    let (pile, answers, out) = (t.read(pile), t.read(answers), t.out(room));
    t.call(|c| {
        let [pile, answers] = [pile, answers].map(|id| (c.at(id), c.len(id)));
        let (out, length) = (c.out(out), c.len(out));
        unsafe { raw::tb_cut_run(pile.0, pile.1, answers.0, answers.1, out, length) }.into()
    });
}

fn cut_signed_run(t: &mut Trial) {
    let pile = t.make.pile();
    let room = t.make.room(pile.len());
    let (pile, out) = (t.read(pile), t.out(room));
    t.call(|c| {
        let (at, length) = (c.at(pile), c.len(pile));
        unsafe { raw::tb_cut_signed_run(at, length, c.out(out), c.len(out)) }.into()
    });
}
