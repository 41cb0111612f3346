//! Reports as JSON.

use crate::any_exports::{export, Export, Stack::Least, Stack::Text, Stack::Verify};
use crate::any_real::records;
use crate::any_trial::Trial;
use trawlbeacon::raw;

pub const EXPORTS: &[Export] = &[
    export("tb_read_report", Least, 12_000, &[(0, 0), (19, 19), (24, 25)], read_report),
    export("tb_write_report", Least, 20_000, &[(0, 19)], write_report),
    export("tb_write_signed_report", Verify, 1_500, &[(0, 19)], write_signed_report),
    export("tb_cut_text", Text, 10_000, &[(0, 0), (15, 15), (18, 19), (24, 25)], cut_text),
    export("tb_cut_signed_text", Text, 1_500, &[(0, 0), (18, 19), (24, 25)], cut_signed_text),
];

/// The text of a report of two to four records has about so many bytes.
const USUAL: usize = 8_000;

fn read_report(t: &mut Trial) {
    let (text, room) = (t.make.text(), t.make.room(4 * 4096));
    let (text, out) = (t.read(text), t.out(room));
    t.call(|c| {
        let (at, length) = (c.at(text), c.len(text));
        unsafe { raw::tb_read_report(at, length, c.out(out), c.len(out)) }.into()
    });
}

fn write_report(t: &mut Trial) {
    let pile = t.make.pile();
    let (answers, room) = (t.make.answers(records(&pile)), t.make.room(USUAL));
    let (pile, answers, out) = (t.read(pile), t.read(answers), t.out(room));
    t.call(|c| {
        let [pile, answers] = [pile, answers].map(|id| (c.at(id), c.len(id)));
        let (out, length) = (c.out(out), c.len(out));
        unsafe { raw::tb_write_report(pile.0, pile.1, answers.0, answers.1, out, length) }.into()
    });
}

fn write_signed_report(t: &mut Trial) {
    let (pile, room) = (t.make.pile(), t.make.room(USUAL));
    let (pile, out) = (t.read(pile), t.out(room));
    t.call(|c| {
        let (at, length) = (c.at(pile), c.len(pile));
        unsafe { raw::tb_write_signed_report(at, length, c.out(out), c.len(out)) }.into()
    });
}

/// As many answers as the text seems to have records.
fn cut_text(t: &mut Trial) {
    let (text, room) = (t.make.text(), t.make.room(USUAL));
    let count = text.windows(9).filter(|name| name == b"\"request\"").count();
    let answers = t.make.answers(count);
    let (text, answers, out) = (t.read(text), t.read(answers), t.out(room));
    t.call(|c| {
        let [text, answers] = [text, answers].map(|id| (c.at(id), c.len(id)));
        let (out, length) = (c.out(out), c.len(out));
        unsafe { raw::tb_cut_text(text.0, text.1, answers.0, answers.1, out, length) }.into()
    });
}

fn cut_signed_text(t: &mut Trial) {
    let (text, room) = (t.make.text(), t.make.room(USUAL));
    let (text, out) = (t.read(text), t.out(room));
    t.call(|c| {
        let (at, length) = (c.at(text), c.len(text));
        unsafe { raw::tb_cut_signed_text(at, length, c.out(out), c.len(out)) }.into()
    });
}
