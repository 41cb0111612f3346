//! Whole batches: packets in slots, real ones, damaged ones and any bytes.

use crate::any_answers::Answer;
use crate::any_exports::{export, Export, Stack::Batch};
use crate::any_trial::{Trial, Use, MOST_BYTES};
use independent::respond;
use trawlbeacon::raw::{self, size};
use trawlbeacon::SigningKey;

pub const EXPORTS: &[Export] = &[export(
    "tb_answer_batch",
    Batch,
    3_000,
    &[(0, 0), (4, 7), (11, 11), (19, 20), (35, 35)],
    answer_batch,
)];

/// The seed of the delegated key.
const SEED: [u8; 32] = [7; 32];

/// Slots with packets, their lengths, and the SRV value that the last of them names.
fn slots(t: &mut Trial, slot: usize, count: usize) -> (Vec<u8>, Vec<u32>, [u8; 32]) {
    let (mut packets, mut lengths) = (t.make.bytes(slot * count), Vec::new());
    let mut srv = t.make.array();
    for place in 0..count {
        let packet = t.make.request();
        if let Ok(named) = independent::request::read(&packet) {
            srv = named.srv.unwrap_or(srv);
        }
        let kept = packet.len().min(slot);
        packets[slot * place..][..kept].copy_from_slice(&packet[..kept]);
        let any = t.make.word();
        lengths.push(if t.make.random.once_in(16) { any } else { packet.len() as u32 });
    }
    (packets, lengths, srv)
}

/// How many packets there are: few, none, as many as may be, or too many, of which nothing but
/// lengths is lent.
fn count(t: &mut Trial) -> usize {
    let few = 1 + t.make.random.below(6);
    let many = t.make.random.pick(&[0, 1024, 1025, 1030]);
    if t.make.random.once_in(12) {
        many
    } else {
        few
    }
}

fn answer_batch(t: &mut Trial) {
    let (count, slot) = (count(t), t.make.random.pick(&[1036, 1040, 2000, 2001, 900]));
    let (mut packets, mut lengths, srv) = slots(t, slot, if count > 9 { 0 } else { count });
    lengths.resize(count, 1036);
    if t.make.random.once_in(16) {
        packets.truncate(t.make.place(packets.len()).min(size(MOST_BYTES)) as usize);
    }
    let (midp, width) = (t.make.number(), count.next_power_of_two());
    let mint = if t.make.random.once_in(8) { t.make.number() } else { midp };
    let own = SigningKey::new(&SEED).public_key();
    let pubk = if t.make.random.once_in(8) { t.make.array() } else { own };
    let right = respond::cert(&pubk, mint, mint.max(midp), &t.make.array());
    let cert = if t.make.random.once_in(3) { t.make.near(&right, &right) } else { right };
    let radi = if t.make.random.once_in(16) { t.make.word() } else { 5 };
    let needed = 264 + 32 * width.trailing_zeros() as usize + cert.len();
    let room = if t.make.random.once_in(8) { t.make.place(needed) } else { size(needed + 4) };
    let rows = if t.make.random.once_in(8) { t.make.length() } else { 32 * (2 * width - 1) };
    let whole = room.saturating_mul(size(count)).min(size(MOST_BYTES)) as usize;
    let out = if t.make.random.once_in(8) { t.make.room(whole) } else { whole };
    let told =
        if t.make.random.once_in(8) { t.make.place(count).min(1100) as usize } else { count };
    let [packets, cert] = [packets, cert].map(|bytes| t.read(bytes));
    let (srv, seed, lengths) = (t.read(srv), t.read(SEED), t.words(Use::Read, &lengths));
    let [rows, out] = [rows, out].map(|length| {
        let bytes = t.make.random.bytes(length.min(MOST_BYTES));
        t.lend(Use::State, bytes)
    });
    let words: Vec<u32> = (0..told).map(|_| t.make.random.next() as u32).collect();
    let out_lengths = t.words(Use::State, &words);
    t.call(|c| {
        let told = unsafe {
            raw::tb_answer_batch(
                c.at(packets),
                c.len(packets),
                size(slot),
                c.at(lengths).cast(),
                c.len(lengths) / 4,
                c.array(srv),
                c.at(cert),
                c.len(cert),
                c.array(seed),
                midp,
                radi,
                c.out(rows),
                c.len(rows),
                c.out(out),
                c.len(out),
                room,
                c.out(out_lengths).cast(),
                c.len(out_lengths) / 4,
            )
        };
        let of_radi = told.code == 7 && told.at == 0;
        assert!(!of_radi || radi == 0, "{told:?}: a value of CERT starts at no byte 0");
        Answer::from(told)
    });
}
