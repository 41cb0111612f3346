//! Hashes, at once and in pieces, and trees.

use crate::any_answers::Answer;
use crate::any_exports::{export, Export, Stack, Stack::Least, NOTHING, YES_OR_NO};
use crate::any_trial::{Id, Trial, Use};
use independent::hash::Hash;
use independent::tree::{self, Tree};
use trawlbeacon::raw;

pub const EXPORTS: &[Export] = &[
    export("tb_sha512", Least, 60_000, NOTHING, sha512),
    export("tb_leaf", Least, 60_000, NOTHING, leaf),
    export("tb_parent", Least, 100_000, NOTHING, parent),
    export("tb_empty_place", Least, 50_000, NOTHING, empty_place),
    export("tb_srv_value", Least, 100_000, NOTHING, srv_value),
    export("tb_link", Least, 60_000, NOTHING, link),
    export("tb_sha512_start_fields", Least, 100_000, NOTHING, start),
    export("tb_leaf_start_fields", Least, 100_000, NOTHING, leaf_start),
    export("tb_sha512_take_fields", Least, 60_000, &[(0, 0), (30, 30)], take),
    export("tb_sha512_finish_fields", Least, 100_000, NOTHING, finish),
    export("tb_hash_finish_fields", Least, 100_000, NOTHING, hash_finish),
    export("tb_leads", Least, 60_000, YES_OR_NO, leads),
    export("tb_root", Stack::Tree, 40_000, &[(0, 0), (20, 20)], root),
    export("tb_path", Stack::Tree, 40_000, &[(0, 0), (19, 20)], path),
    export("tb_rows", Stack::Tree, 40_000, &[(0, 0), (19, 20)], rows),
    export("tb_path_from", Least, 100_000, &[(0, 0), (19, 20)], path_from),
];

fn sha512(t: &mut Trial) {
    let message = t.make.any();
    let (message, out) = (t.read(message), t.out(64));
    t.call(|c| {
        unsafe { raw::tb_sha512(c.at(message), c.len(message), c.array(out)) };
        Answer::whole(64)
    });
}

fn leaf(t: &mut Trial) {
    let packet = t.make.request();
    let (packet, out) = (t.read(packet), t.out(32));
    t.call(|c| {
        unsafe { raw::tb_leaf(c.at(packet), c.len(packet), c.array(out)) };
        Answer::whole(32)
    });
}

fn parent(t: &mut Trial) {
    let [left, right] = [0; 2].map(|_| t.make.array::<32>());
    let (left, right, out) = (t.read(left), t.read(right), t.out(32));
    t.call(|c| {
        unsafe { raw::tb_parent(c.array(left), c.array(right), c.array(out)) };
        Answer::whole(32)
    });
}

fn empty_place(t: &mut Trial) {
    let out = t.out(32);
    t.call(|c| {
        unsafe { raw::tb_empty_place(c.array(out)) };
        Answer::whole(32)
    });
}

fn srv_value(t: &mut Trial) {
    let key = t.make.array::<32>();
    let (key, out) = (t.read(key), t.out(32));
    t.call(|c| {
        unsafe { raw::tb_srv_value(c.array(key), c.array(out)) };
        Answer::whole(32)
    });
}

fn link(t: &mut Trial) {
    let (response, rand) = (t.make.response(), t.make.array::<32>());
    let (response, rand, out) = (t.read(response), t.read(rand), t.out(32));
    t.call(|c| {
        unsafe { raw::tb_link(c.at(response), c.len(response), c.array(rand), c.array(out)) };
        Answer::whole(32)
    });
}

/// A state of a hash in pieces that no start led to.
struct Running {
    h: Id,
    rest: Id,
    count: u64,
}

fn running(t: &mut Trial, used: Use) -> Running {
    let h: Vec<u64> = (0..8).map(|_| t.make.random.next()).collect();
    let (rest, count) = (t.make.bytes(128), t.make.number());
    Running { h: t.numbers(used, &h), rest: t.lend(used, rest), count }
}

fn start(t: &mut Trial) {
    let Running { h, rest, count } = running(t, Use::State);
    let count = t.numbers(Use::State, &[count]);
    t.call(|c| {
        unsafe { raw::tb_sha512_start_fields(c.numbers(h), c.array(rest), c.number(count)) };
        Answer::code(0)
    });
}

fn leaf_start(t: &mut Trial) {
    let Running { h, rest, count } = running(t, Use::State);
    let count = t.numbers(Use::State, &[count]);
    t.call(|c| {
        unsafe { raw::tb_leaf_start_fields(c.numbers(h), c.array(rest), c.number(count)) };
        Answer::code(0)
    });
}

fn take(t: &mut Trial) {
    let Running { h, rest, count } = running(t, Use::State);
    let (count, piece) = (t.numbers(Use::State, &[count]), t.make.any());
    let piece = t.read(piece);
    t.call(|c| {
        let (h, rest, count) = (c.numbers(h), c.array(rest), c.number(count));
        let (at, length) = (c.at(piece), c.len(piece));
        Answer::code(unsafe { raw::tb_sha512_take_fields(h, rest, count, at, length) })
    });
}

fn finish(t: &mut Trial) {
    let Running { h, rest, count } = running(t, Use::Read);
    let out = t.out(64);
    t.call(|c| {
        let (h, rest, out) = (c.numbers(h), c.array(rest), c.array(out));
        unsafe { raw::tb_sha512_finish_fields(h, rest, count, out) };
        Answer::whole(64)
    });
}

fn hash_finish(t: &mut Trial) {
    let Running { h, rest, count } = running(t, Use::Read);
    let out = t.out(32);
    t.call(|c| {
        let (h, rest, out) = (c.numbers(h), c.array(rest), c.array(out));
        unsafe { raw::tb_hash_finish_fields(h, rest, count, out) };
        Answer::whole(32)
    });
}

/// A leaf, its index, its siblings and the root that they lead to, or nearly so.
fn leads(t: &mut Trial) {
    let (leaf, siblings): (Hash, _) =
        (t.make.array(), t.make.random.pick(&[0, 1, 2, 5, 31, 32, 33]));
    let path: Vec<Hash> = (0..siblings).map(|_| t.make.array()).collect();
    let indx = if t.make.random.once_in(4) { t.make.word() } else { 0 };
    let root = tree::root_of(&leaf, indx, &path);
    let root = if t.make.random.once_in(8) { t.make.array() } else { root };
    let path = t.make.mostly(&path.concat(), &leaf);
    let (leaf, path, root) = (t.read(leaf), t.read(path), t.read(root));
    t.call(|c| {
        let (at, length) = (c.at(path), c.len(path));
        let said = unsafe { raw::tb_leads(c.array(leaf), indx, at, length, c.array(root)) };
        Answer::yes_or_no(said)
    });
}

fn root(t: &mut Trial) {
    let leaves = t.make.nodes();
    let leaves = t.read(leaves);
    t.call(|c| unsafe { raw::tb_root(c.at(leaves), c.len(leaves)) }.into());
}

fn path(t: &mut Trial) {
    let leaves = t.make.nodes();
    let place = t.make.place(leaves.len() / 32);
    let depth = (leaves.len() / 32).max(1).next_power_of_two().trailing_zeros() as usize;
    let room = t.make.room(32 * depth);
    let (leaves, out) = (t.read(leaves), t.out(room));
    t.call(|c| {
        let (at, length) = (c.at(leaves), c.len(leaves));
        unsafe { raw::tb_path(at, length, place, c.out(out), c.len(out)) }.into()
    });
}

fn rows(t: &mut Trial) {
    let leaves = t.make.nodes();
    let places = (leaves.len() / 32).max(1).next_power_of_two();
    let room = t.make.room(32 * (2 * places - 1));
    let (leaves, out) = (t.read(leaves), t.out(room));
    t.call(|c| {
        let (at, length) = (c.at(leaves), c.len(leaves));
        unsafe { raw::tb_rows(at, length, c.out(out), c.len(out)) }.into()
    });
}

fn path_from(t: &mut Trial) {
    let mut rows = t.make.nodes();
    if t.make.random.once_in(8) && rows.len() < 1024 {
        rows = Tree::build(&rows).map_or(rows, |tree| tree.bytes());
    }
    let nodes = rows.len() / 32;
    let (count, room) = (t.make.place((nodes + 1) / 2), t.make.room(64));
    let place = t.make.place(count.min(2048) as usize);
    let (rows, out) = (t.read(rows), t.out(room));
    t.call(|c| {
        let (at, length) = (c.at(rows), c.len(rows));
        unsafe { raw::tb_path_from(at, length, count, place, c.out(out), c.len(out)) }.into()
    });
}
