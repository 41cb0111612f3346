//! A whole batch in one call, its signature too: beside the hashing and the signature that it needs,
//! beside the three steps in which the same can be done, and beside the independent server.
//!
//! No buffer is cleared between runs.

use crate::run::Run;
use crate::sides::{work, Side, Subject, Work};
use crate::table::{count, Columns, Table, MICROSECONDS};
use independent::batch::{Desk, Lent};
use independent::ed25519::{Ed25519, Secret};
use std::hint::black_box;
use trawlbeacon::{
    answer_room, Hash, Reply, Sending, SigningKey, Waiting, CERT_LENGTH, DELE_LENGTH, MOST_LEAVES,
    MOST_ROWS_LENGTH, REQUEST_LENGTH, SREP_LENGTH,
};

/// The batches: the second is held to limits.
const BATCHES: [usize; 3] = [64, 900, MOST_LEAVES];
const HELD: usize = 900;

const MIDP: u64 = 1_773_685_571;
const RADI: u32 = 3;
const ROOM: usize = answer_room(CERT_LENGTH);
const SEED: [u8; 32] = [2; 32];

/// A server, and what waits there.
struct Server {
    key: SigningKey,
    secret: Secret,
    ed25519: Ed25519,
    srv: Hash,
    cert: [u8; CERT_LENGTH],
    /// One packet after the other, all of the same length.
    packets: Vec<u8>,
    lengths: Vec<u32>,
}

impl Server {
    /// At which so many requests wait.
    fn new(batch: usize) -> Self {
        let (long_term, key, ed25519) =
            (SigningKey::new(&[1; 32]), SigningKey::new(&SEED), Ed25519::new());
        let (pubk, mut dele, mut cert) = (key.public_key(), [0; DELE_LENGTH], [0; CERT_LENGTH]);
        trawlbeacon::write_dele(&pubk, MIDP, MIDP, &mut dele).expect("there is room");
        let signature = long_term.sign_dele(&dele);
        trawlbeacon::write_cert(&pubk, MIDP, MIDP, &signature, &mut cert).expect("there is room");
        let mut packets = vec![0; batch * REQUEST_LENGTH];
        for (client, packet) in packets.chunks_exact_mut(REQUEST_LENGTH).enumerate() {
            let nonce = trawlbeacon::leaf(&client.to_le_bytes());
            trawlbeacon::write_request(&long_term.public_key(), &nonce, packet)
                .expect("there is room");
        }
        let srv = trawlbeacon::srv_value(&long_term.public_key());
        let lengths = vec![REQUEST_LENGTH as u32; batch];
        Server { secret: ed25519.secret(&SEED), key, ed25519, srv, cert, packets, lengths }
    }

    fn requests(&self) -> impl Iterator<Item = &[u8]> {
        self.packets.chunks_exact(REQUEST_LENGTH)
    }

    fn batch(&self) -> usize {
        self.lengths.len()
    }

    fn in_one_call(&self) -> Work<'_> {
        let (mut rows, mut out) = (vec![0; MOST_ROWS_LENGTH], vec![0; ROOM * self.batch()]);
        let mut told = vec![0; self.batch()];
        work(move || {
            let waiting = Waiting {
                packets: black_box(&self.packets),
                slot: REQUEST_LENGTH,
                lengths: &self.lengths,
                srv: &self.srv,
                cert: &self.cert,
                key: &self.key,
                midp: MIDP,
                radi: RADI,
            };
            let sending =
                Sending { rows: &mut rows, out: &mut out, room: ROOM, lengths: &mut told };
            let answered = trawlbeacon::answer_batch(&waiting, sending);
            assert_eq!(answered, Ok(self.batch()), "each is answered");
            black_box(&out);
        })
    }

    /// The leaves of the requests and all parents, and a signature.
    fn hashing(&self) -> Work<'_> {
        let (left, right, srep) = ([3; 32], [4; 32], [5; SREP_LENGTH]);
        work(move || {
            for request in self.requests() {
                black_box(trawlbeacon::leaf(black_box(request)));
            }
            for _ in 1..self.batch().next_power_of_two() {
                black_box(trawlbeacon::parent(black_box(&left), black_box(&right)));
            }
            self.key.sign_srep(black_box(&srep))
        })
    }

    /// The leaves, the rows and the signature; and then each path, and each response.
    fn in_steps(&self) -> Work<'_> {
        let (mut rows, mut srep) = (vec![0; MOST_ROWS_LENGTH], [0; SREP_LENGTH]);
        let mut out = vec![0; ROOM * self.batch()];
        work(move || {
            let leaves: Vec<u8> = self.requests().flat_map(trawlbeacon::leaf).collect();
            let laid = trawlbeacon::rows(&leaves, &mut rows).expect("there are leaves");
            let rows = &rows[..laid.length];
            let root: &Hash = rows[laid.length - 32..].try_into().expect("the last node");
            trawlbeacon::write_srep(root, MIDP, RADI, &mut srep).expect("there is room");
            let signature = &self.key.sign_srep(&srep);
            let (mut path, cert) = ([0; 320], &self.cert[..]);
            for (place, (request, out)) in self.requests().zip(out.chunks_mut(ROOM)).enumerate() {
                let placed = trawlbeacon::path_from(rows, self.batch(), place, &mut path)
                    .expect("there is such a leaf");
                let (indx, path) = (placed.indx, &path[..32 * placed.depth]);
                let (midp, radi) = (MIDP, RADI);
                let reply = Reply { request, indx, root, path, midp, radi, cert, signature };
                trawlbeacon::write_response(&reply, out).expect("it can be answered");
            }
            black_box(&out);
        })
    }

    fn independent(&self) -> Work<'_> {
        work(move || {
            let (cert, secret) = (&self.cert[..], &self.secret);
            let desk = Desk { srv: self.srv, cert, secret, midp: MIDP, radi: RADI };
            let lent = Lent {
                packets: black_box(&self.packets),
                slot: REQUEST_LENGTH,
                lengths: &self.lengths,
                rows: MOST_ROWS_LENGTH,
                out: ROOM * self.batch(),
                room: ROOM,
                out_lengths: self.batch(),
            };
            desk.answer(&self.ed25519, &lent).expect("it can be answered")
        })
    }

    fn subject(&self) -> Subject<'_> {
        let works = vec![
            (Side::Ours, self.in_one_call()),
            (Side::Hashing, self.hashing()),
            (Side::Steps, self.in_steps()),
            (Side::Independent, self.independent()),
        ];
        let name = format!("{} requests in one call", count(self.batch()));
        let subject = Subject::new(name, self.batch(), works);
        match self.batch() {
            HELD => subject.held(Side::Hashing, "batch").held(Side::Steps, "batch_steps"),
            _ => subject,
        }
    }
}

const COLUMNS: Columns =
    Columns { sides: &[Side::Ours, Side::Hashing, Side::Steps, Side::Independent], ..MICROSECONDS };

pub fn part(run: &mut Run) {
    let title = "a batch and its signature; the hashing is the leaves and parents, and a signature";
    let servers = BATCHES.map(Server::new);
    let subjects = servers.iter().map(Server::subject).collect();
    run.table(Table::new("batches", title, &["Batch"]), &COLUMNS, subjects);
}
