//! Requests, responses and the signatures of these.

use crate::any_answers::Answer;
use crate::any_exports::{export, Export, Stack::Least, Stack::Verify, YES_OR_NO};
use crate::any_trial::Trial;
use trawlbeacon::raw;

pub const EXPORTS: &[Export] = &[
    export("tb_read_request", Least, 100_000, &[(0, 8)], read_request),
    export("tb_read_response", Least, 100_000, &[(0, 8)], read_response),
    export("tb_signed_parts", Least, 100_000, &[(0, 7)], signed_parts),
    export("tb_delegation_text", Least, 100_000, &[(0, 7), (19, 19)], delegation_text),
    export("tb_response_text", Least, 100_000, &[(0, 7), (19, 19)], response_text),
    export("tb_check_response", Least, 60_000, &[(0, 14)], check_response),
    export("tb_verify", Verify, 3_000, YES_OR_NO, verify),
    export("tb_verify_parts", Verify, 3_000, YES_OR_NO, verify_parts),
    export("tb_answers", Verify, 3_000, &[(0, 3)], answers),
    export("tb_check_signed", Verify, 4_000, &[(0, 14)], check_signed),
    export("tb_may_use_fields", Least, 100_000, YES_OR_NO, may_use),
    export("tb_same_delegation_fields", Least, 100_000, YES_OR_NO, same_delegation),
];

fn read_request(t: &mut Trial) {
    let packet = t.make.request();
    let packet = t.read(packet);
    t.call(|c| unsafe { raw::tb_read_request(c.at(packet), c.len(packet)) }.into());
}

fn read_response(t: &mut Trial) {
    let packet = t.make.response();
    let packet = t.read(packet);
    t.call(|c| unsafe { raw::tb_read_response(c.at(packet), c.len(packet)) }.into());
}

fn signed_parts(t: &mut Trial) {
    let packet = t.make.response();
    let packet = t.read(packet);
    t.call(|c| unsafe { raw::tb_signed_parts(c.at(packet), c.len(packet)) }.into());
}

fn delegation_text(t: &mut Trial) {
    let (packet, room) = (t.make.response(), t.make.room(106));
    let (packet, out) = (t.read(packet), t.out(room));
    t.call(|c| {
        let (at, length) = (c.at(packet), c.len(packet));
        unsafe { raw::tb_delegation_text(at, length, c.out(out), c.len(out)) }.into()
    });
}

fn response_text(t: &mut Trial) {
    let (packet, room) = (t.make.response(), t.make.room(124));
    let (packet, out) = (t.read(packet), t.out(room));
    t.call(|c| {
        let (at, length) = (c.at(packet), c.len(packet));
        unsafe { raw::tb_response_text(at, length, c.out(out), c.len(out)) }.into()
    });
}

fn check_response(t: &mut Trial) {
    let (_, request, response) = t.make.exchange();
    let (request, response) = (t.read(request), t.read(response));
    let (delegation, signature) = (t.make.answer(), t.make.answer());
    t.call(|c| {
        let (asked, asked_length) = (c.at(request), c.len(request));
        let (told, told_length) = (c.at(response), c.len(response));
        unsafe {
            raw::tb_check_response(asked, asked_length, told, told_length, delegation, signature)
        }
        .into()
    });
}

/// A key, a text and a signature, of which now and then one is something else.
fn signature(t: &mut Trial) -> [Vec<u8>; 3] {
    let cases = &t.make.real.signatures;
    let [one, another] = [0; 2].map(|_| &cases[t.make.random.below(cases.len())]);
    [
        t.make.mostly(&one.key, &another.key),
        t.make.mostly(&one.text, &another.text),
        t.make.mostly(&one.signature, &another.signature),
    ]
}

fn verify(t: &mut Trial) {
    let [key, text, signature] = signature(t).map(|bytes| t.read(bytes));
    t.call(|c| {
        let [key, text, signature] = [key, text, signature].map(|id| (c.at(id), c.len(id)));
        Answer::yes_or_no(unsafe {
            raw::tb_verify(key.0, key.1, text.0, text.1, signature.0, signature.1)
        })
    });
}

fn verify_parts(t: &mut Trial) {
    let [key, text, signature] = signature(t);
    let (context, value) = text.split_at(t.make.random.below(text.len() + 1));
    let [key, context, value, signature] =
        [&key, context, value, &signature].map(|bytes: &[u8]| t.read(bytes));
    t.call(|c| {
        let parts = [key, context, value, signature].map(|id| (c.at(id), c.len(id)));
        let [key, context, value, signed] = parts;
        let (context, context_length) = context;
        Answer::yes_or_no(unsafe {
            raw::tb_verify_parts(
                key.0,
                key.1,
                context,
                context_length,
                value.0,
                value.1,
                signed.0,
                signed.1,
            )
        })
    });
}

fn answers(t: &mut Trial) {
    let (key, _, response) = t.make.exchange();
    let (key, response, out) = (t.read(key), t.read(response), t.out(2));
    t.call(|c| {
        let out = c.array(out);
        unsafe { raw::tb_answers(c.array(key), c.at(response), c.len(response), out) };
        assert!(out.iter().all(|answer| *answer < 2), "an answer is neither 1 nor 0: {out:?}");
        Answer { said: u32::from(out[0] + 2 * out[1]), ..Answer::whole(2) }
    });
}

fn check_signed(t: &mut Trial) {
    let (key, request, response) = t.make.exchange();
    let (key, request, response) = (t.read(key), t.read(request), t.read(response));
    t.call(|c| {
        let (asked, asked_length) = (c.at(request), c.len(request));
        let (told, told_length) = (c.at(response), c.len(response));
        unsafe { raw::tb_check_signed(c.array(key), asked, asked_length, told, told_length) }.into()
    });
}

fn may_use(t: &mut Trial) {
    let code = if t.make.random.once_in(2) { 0 } else { t.make.word() };
    let (maxt, time) = (t.make.number(), t.make.number());
    t.call(|_| Answer::yes_or_no(unsafe { raw::tb_may_use_fields(code, maxt, time) }));
}

fn same_delegation(t: &mut Trial) {
    let [first_code, second_code] = [0; 2].map(|_| t.make.random.pick(&[0, 0, 0, 7, u32::MAX]));
    let (one, another) = (t.make.array::<32>(), t.make.array::<32>());
    let other = t.make.mostly(&one, &another);
    let [(mint, other_mint), (maxt, other_maxt)] = [0; 2].map(|_| {
        let (time, other) = (t.make.number(), t.make.number());
        (time, t.make.random.pick(&[time, time, time, time ^ 1, other]))
    });
    let (first, second) =
        (t.read(one), t.read(if other.len() == 32 { other } else { another.into() }));
    t.call(|c| {
        let (first, second) = (c.array(first), c.array(second));
        let said = unsafe {
            raw::tb_same_delegation_fields(
                first_code,
                first,
                mint,
                maxt,
                second_code,
                second,
                other_mint,
                other_maxt,
            )
        };
        Answer::yes_or_no(said)
    });
}
