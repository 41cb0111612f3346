//! What clients and servers write, lists of servers, and old stamps.

use crate::any_answers::{Answer, REQUEST};
use crate::any_exports::{export, Export, Stack::Least};
use crate::any_trial::Trial;
use independent::hash::{self, Hash};
use independent::{respond, tree};
use trawlbeacon::raw;

pub const EXPORTS: &[Export] = &[
    export("tb_write_request", Least, 60_000, &[(0, 0), (19, 19)], write_request),
    export("tb_write_dele", Least, 100_000, &[(0, 0), (19, 19)], write_dele),
    export("tb_write_cert", Least, 100_000, &[(0, 0), (19, 19)], write_cert),
    export("tb_write_srep", Least, 100_000, &[(0, 0), (7, 7), (19, 19)], write_srep),
    export(
        "tb_write_response",
        Least,
        40_000,
        &[(0, 0), (4, 7), (10, 11), (14, 14), (19, 19), (23, 23)],
        write_response,
    ),
    export("tb_find_server", Least, 100_000, &[(0, 0), (21, 22)], find_server),
    export("tb_old_window", Least, 100_000, &[(0, 0), (29, 29)], old_window),
];

fn write_request(t: &mut Trial) {
    let (key, nonce, room) = (t.make.array::<32>(), t.make.array::<32>(), t.make.room(REQUEST));
    let (key, nonce, out) = (t.read(key), t.read(nonce), t.out(room));
    t.call(|c| {
        let (key, nonce) = (c.array(key), c.array(nonce));
        unsafe { raw::tb_write_request(key, nonce, c.out(out), c.len(out)) }.into()
    });
}

fn write_dele(t: &mut Trial) {
    let (pubk, mint, maxt) = (t.make.array::<32>(), t.make.number(), t.make.number());
    let room = t.make.room(72);
    let (pubk, out) = (t.read(pubk), t.out(room));
    t.call(|c| {
        unsafe { raw::tb_write_dele(c.array(pubk), mint, maxt, c.out(out), c.len(out)) }.into()
    });
}

fn write_cert(t: &mut Trial) {
    let (pubk, mint, maxt) = (t.make.array::<32>(), t.make.number(), t.make.number());
    let (signature, room) = (t.make.array::<64>(), t.make.room(152));
    let (pubk, signature, out) = (t.read(pubk), t.read(signature), t.out(room));
    t.call(|c| {
        let (pubk, signature) = (c.array(pubk), c.array(signature));
        unsafe { raw::tb_write_cert(pubk, mint, maxt, signature, c.out(out), c.len(out)) }.into()
    });
}

fn write_srep(t: &mut Trial) {
    let (root, midp, radi) = (t.make.array::<32>(), t.make.number(), t.make.word());
    let room = t.make.room(92);
    let (root, out) = (t.read(root), t.out(room));
    t.call(|c| {
        unsafe { raw::tb_write_srep(c.array(root), midp, radi, c.out(out), c.len(out)) }.into()
    });
}

/// The siblings of a request's leaf, its index and the root.
fn branch(t: &mut Trial, request: &[u8]) -> (Vec<u8>, u32, Hash) {
    let depth = t.make.random.pick(&[0, 1, 3, 3, 5, 32]);
    let path: Vec<Hash> = (0..depth).map(|_| t.make.array()).collect();
    let indx = t.make.random.below(1 << depth) as u32;
    let root = tree::root_of(&hash::leaf(request), indx, &path);
    (path.concat(), indx, root)
}

/// MINT, MIDP and MAXT, of which mostly the second is not outside the others.
fn times(t: &mut Trial) -> [u64; 3] {
    let mut times = [t.make.number(), t.make.number(), t.make.number()];
    if !t.make.random.once_in(8) {
        times.sort_unstable();
    }
    times
}

fn write_response(t: &mut Trial) {
    let request = t.make.request();
    let (path, indx, root) = branch(t, &request);
    let ([mint, midp, maxt], pubk, signature) = (times(t), t.make.array(), t.make.array());
    let right = respond::cert(&pubk, mint, maxt, &signature);
    let (cert, path) = (t.make.near(&right, &right), t.make.mostly(&path, &right));
    let radi = if t.make.random.once_in(16) { t.make.word() } else { 5 };
    let room = t.make.room(264 + path.len() + cert.len());
    let [request, root, path, cert, signature] =
        [&request[..], &root, &path, &cert, &signature].map(|bytes| t.read(bytes));
    let out = t.out(room);
    t.call(|c| {
        let (asked, asked_length, root) = (c.at(request), c.len(request), c.array(root));
        let (path, path_length) = (c.at(path), c.len(path));
        let (cert, cert_length, signature) = (c.at(cert), c.len(cert), c.array(signature));
        let (out, out_length) = (c.out(out), c.len(out));
        let told = unsafe {
            raw::tb_write_response(
                asked,
                asked_length,
                indx,
                root,
                path,
                path_length,
                midp,
                radi,
                cert,
                cert_length,
                signature,
                out,
                out_length,
            )
        };
        let of_radi = told.code == 7 && told.at == 0;
        assert!(!of_radi || radi == 0, "{told:?}: a value of CERT starts at no byte 0");
        told.into()
    });
}

/// Some records of a list, as they are or nearly so.
fn list(t: &mut Trial) -> Vec<u8> {
    let all = &t.make.real.servers;
    let from = 64 * t.make.random.below(all.len() / 64);
    let to = from + 64 * t.make.random.below((all.len() - from) / 64 + 1);
    t.make.mostly(&all[from..to], all)
}

fn find_server(t: &mut Trial) {
    let (owner, shipped, all) = (list(t), list(t), &t.make.real.servers);
    let one = 64 * t.make.random.below(all.len() / 64) + 32;
    let srv = if t.make.random.once_in(4) { t.make.bytes(32) } else { all[one..one + 32].into() };
    let (owner, shipped, srv) = (t.read(owner), t.read(shipped), t.read(srv));
    t.call(|c| {
        let (first, first_length) = (c.at(owner), c.len(owner));
        let (second, second_length) = (c.at(shipped), c.len(shipped));
        let srv = c.array(srv);
        unsafe { raw::tb_find_server(first, first_length, second, second_length, srv) }.into()
    });
}

/// Days and microseconds around the borders, or any.
fn old_window(t: &mut Trial) {
    let day = t.make.random.pick(&[40_586, 40_587, 40_588, 59_000, 0xff_ffff]);
    let micros = t.make.random.pick(&[0, 1, 86_399_999_999, 86_400_000_000, 86_400_999_999]);
    let more = t.make.random.below(3) as u64;
    let stamp = day << 40 | (micros + more);
    let midp = if t.make.random.once_in(2) { stamp } else { t.make.number() };
    let radi = t.make.word();
    t.call(|_| Answer::from(unsafe { raw::tb_old_window(midp, radi) }));
}
