//! Signing: any seeds, and any texts.

use crate::any_answers::Answer;
use crate::any_exports::{export, Export, Stack::Sign, NOTHING};
use crate::any_trial::Trial;
use trawlbeacon::raw;

pub const EXPORTS: &[Export] = &[
    export("tb_public_key", Sign, 3_000, NOTHING, public_key),
    export("tb_sign", Sign, 3_000, NOTHING, sign),
    export("tb_sign_parts", Sign, 3_000, NOTHING, sign_parts),
];

fn public_key(t: &mut Trial) {
    let seed = t.make.array::<32>();
    let (seed, out) = (t.read(seed), t.out(32));
    t.call(|c| {
        unsafe { raw::tb_public_key(c.array(seed), c.array(out)) };
        Answer::whole(32)
    });
}

fn sign(t: &mut Trial) {
    let (seed, text) = (t.make.array::<32>(), t.make.any());
    let (seed, text, out) = (t.read(seed), t.read(text), t.out(64));
    t.call(|c| {
        unsafe { raw::tb_sign(c.array(seed), c.at(text), c.len(text), c.array(out)) };
        Answer::whole(64)
    });
}

fn sign_parts(t: &mut Trial) {
    let (seed, context, value) = (t.make.array::<32>(), t.make.any(), t.make.any());
    let (seed, context, value) = (t.read(seed), t.read(context), t.read(value));
    let out = t.out(64);
    t.call(|c| {
        let (before, length) = (c.at(context), c.len(context));
        let (after, more, seed, out) = (c.at(value), c.len(value), c.array(seed), c.array(out));
        unsafe { raw::tb_sign_parts(seed, before, length, after, more, out) };
        Answer::whole(64)
    });
}
