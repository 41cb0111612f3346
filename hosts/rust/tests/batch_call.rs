//! A whole batch in one call: the proved library and the independent one leave the same answers,
//! lengths and rows, byte for byte, or refuse with the same code at the same byte. Each answer is
//! what the writer of single responses writes, and passes the check that verifies signatures.

mod support;

use independent::tag::{NONC, TYPE, VER, ZZZZ};
use independent::{message, packet};
use std::thread;
use support::answers::Both;
use support::batch_calls::{BatchCall, House, Left, Wrong, OF_CERT, SHORT};
use support::tally::Tally;
use support::{counted, Xorshift};
use trawlbeacon::{
    answer_room, Batch, Refusal, Reply, SigningKey, CERT_LENGTH, DELE_LENGTH, LONGEST_PACKET,
    MOST_LEAVES, REQUEST_LENGTH, SLOT,
};

const RIGHT: &str = "right calls";
const FAULTY: &str = "faulty calls";
const COUNTED: &str = "batches answered in one call";

/// Threads, and small batches that each compares, 10,000 in all.
const THREADS: u64 = 4;
const SMALL: usize = 2_500;

/// What is held of the answers to a batch; tells how many there are.
fn judge(house: &House, call: &BatchCall, left: &Left) -> usize {
    let answered = *left.answer.as_ref().expect("it is answered");
    let mut place = 0;
    for (packet, length) in left.lengths[..call.lengths.len()].iter().enumerate() {
        if *length == 0 {
            continue;
        }
        let response = &left.out[call.room * packet..][..*length as usize];
        let request = call.packet(packet);
        assert!(response.len() <= request.len(), "{}", call.show());
        let said = trawlbeacon::check_signed(&house.key, request, response);
        let window = said.unwrap_or_else(|why| panic!("{why}: {}", call.show())).window;
        assert_eq!((window.midp, window.radi), (call.midp, call.radi));
        assert_eq!(written_alone(call, left, (packet, place), response), response);
        place += 1;
    }
    assert_eq!(place, answered, "{}", call.show());
    answered
}

/// What the writer of single responses writes for a packet, at its place in the tree.
fn written_alone(
    call: &BatchCall,
    left: &Left,
    (packet, place): (usize, usize),
    response: &[u8],
) -> Vec<u8> {
    let answered = left.answer.as_ref().copied().unwrap_or(0);
    let mut path = [0; 320];
    let placed = trawlbeacon::path_from(&left.rows, answered, place, &mut path).expect("it is one");
    let read = trawlbeacon::read_response(response).expect("it is a response");
    let parts = trawlbeacon::signed_parts(response).expect("it is a response");
    let reply = Reply {
        request: call.packet(packet),
        indx: placed.indx,
        root: &read.root,
        path: &path[..32 * placed.depth],
        midp: call.midp,
        radi: call.radi,
        cert: &call.cert,
        signature: &parts.signature,
    };
    let mut out = vec![0; LONGEST_PACKET];
    let length = trawlbeacon::write_response(&reply, &mut out).expect("it can be answered");
    out.truncate(length);
    out
}

/// Compares a right call, and tells how many packets are answered.
fn right(tally: &mut Tally, random: &mut Xorshift, house: &House, count: usize) -> usize {
    let call = BatchCall::with(random, house, count, &[]);
    let both = call.ask(house);
    tally.answer(RIGHT, &both, Some(0), || call.show());
    let Both { ours, independent } = both;
    if ours == independent {
        judge(house, &call, &ours)
    } else {
        0
    }
}

#[test]
fn both_sides_answer_the_same_batches() {
    let job = |thread: u64| {
        let mut random = Xorshift::new(0x5eed_0a10 + thread);
        let house = House::new(&mut random);
        let (mut tally, mut packets, mut answered) = (Tally::new(&[RIGHT]), 0, 0);
        for _ in 0..SMALL {
            let most = if random.once_in(20) { 40 } else { 9 };
            let count = 1 + random.below(most);
            packets += count;
            answered += right(&mut tally, &mut random, &house, count);
        }
        tally.no_difference();
        (tally.answers(), packets, answered)
    };
    let jobs: Vec<_> = (0..THREADS).map(|thread| thread::spawn(move || job(thread))).collect();
    let told = jobs.into_iter().map(|job| job.join().expect("no answer is wrong"));
    let add = |sum: (usize, usize, usize), one: (usize, usize, usize)| {
        (sum.0 + one.0, sum.1 + one.1, sum.2 + one.2)
    };
    let (batches, packets, answered) = told.fold((0, 0, 0), add);
    println!("{batches} small batches: of {packets} packets {answered} are answered");
    assert!(answered > packets / 4 && answered < packets * 3 / 4);
    counted(batches, COUNTED);
}

#[test]
fn both_sides_answer_the_same_large_batches() {
    let mut random = Xorshift::new(0x5eed_0a20);
    let house = House::new(&mut random);
    let (mut tally, mut answered) = (Tally::new(&[RIGHT]), 0);
    for count in [255, 256, 257, 511, 512, 513, 900, 901, MOST_LEAVES - 1, MOST_LEAVES] {
        answered += right(&mut tally, &mut random, &house, count);
    }
    tally.no_difference();
    println!("batches of 255 to 1,024 packets: {answered} are answered");
    assert!(answered > 1_000);
    counted(tally.answers(), COUNTED);
}

/// Each fault that there is, in the order in which it is told.
fn faults() -> Vec<Wrong> {
    let cert = OF_CERT.into_iter().map(Wrong::Cert);
    let room = SHORT.into_iter().map(Wrong::Room);
    [Wrong::Radius]
        .into_iter()
        .chain(cert)
        .chain([Wrong::Seed, Wrong::Time, Wrong::Count])
        .chain(room)
        .collect()
}

/// Some first fault, now and then alone, and any others behind it. Where there is no packet none of
/// what is lent is too short.
fn some_faults(random: &mut Xorshift, all: &[Wrong]) -> Vec<Wrong> {
    let first = random.below(all.len());
    let mut faults = vec![all[first]];
    if random.once_in(3) {
        return faults;
    }
    faults.extend(all[first + 1..].iter().filter(|_| random.once_in(4)));
    if faults.contains(&Wrong::Count) {
        faults.retain(|fault| !matches!(fault, Wrong::Room(_)));
    }
    faults
}

#[test]
fn both_sides_refuse_the_same_batches() {
    let mut random = Xorshift::new(0x5eed_0a30);
    let house = House::new(&mut random);
    let (mut tally, all) = (Tally::new(&[FAULTY]), faults());
    for _ in 0..10_000 {
        let (faults, count) = (some_faults(&mut random, &all), 1 + random.below(5));
        // More packets than a batch has are many bytes.
        if faults.contains(&Wrong::Count) && !random.once_in(8) {
            continue;
        }
        let call = BatchCall::with(&mut random, &house, count, &faults);
        tally.answer(FAULTY, &call.ask(&house), Some(faults[0].code()), || call.show());
    }
    println!("refused batches, ours compared with independent:\n{}", tally.table("code"));
    tally.no_difference();
    tally.at_least(50, FAULTY, [4, 5, 6, 7, 11, 19, 20, 35]);
    counted(tally.answers(), COUNTED);
}

/// A server's batch, at a second, and its long-term public key.
fn batch(now: u64) -> (Batch, [u8; 32]) {
    let (long_term, delegated) = (SigningKey::new(&[1; 32]), SigningKey::new(&[2; 32]));
    let (pubk, mut dele, mut cert) = (delegated.public_key(), [0; DELE_LENGTH], [0; CERT_LENGTH]);
    trawlbeacon::write_dele(&pubk, now, now, &mut dele).expect("there is room");
    let signature = long_term.sign_dele(&dele);
    trawlbeacon::write_cert(&pubk, now, now, &signature, &mut cert).expect("there is room");
    (Batch::new(&long_term.public_key(), delegated, &cert), long_term.public_key())
}

/// A good request of so many bytes, with no SRV.
fn request_of(length: usize) -> Vec<u8> {
    let values = [
        (VER, vec![1, 0, 0, 0]),
        (NONC, vec![9; 32]),
        (TYPE, vec![0; 4]),
        (ZZZZ, vec![0; length - 84]),
    ];
    packet::encode(&message::encode(&values))
}

/// Which requests are answered, by how many bytes they have. An answer has 416, and 32 more for
/// each sibling; how many it has hangs on how many are answered, of whom none gets an answer that
/// is longer than his request.
#[test]
fn who_is_too_short_disturbs_nobody() {
    let (mut batch, key) = batch(1_000);
    for (lengths, due) in [
        (vec![416], vec![0]),
        (vec![412], vec![]),
        // Too short for any answer: as if they were not there.
        (vec![412, 416], vec![1]),
        (vec![412, 412, 412, 412, 448, 448], vec![4, 5]),
        // Two answers have a sibling each.
        (vec![416, 448], vec![1]),
        (vec![448, 448], vec![0, 1]),
        (vec![416, 416], vec![]),
        // Who has no room for a sibling is not counted among those that have.
        (vec![448, 444, 448], vec![0, 2]),
        // Three have two siblings each, for which one or two have room.
        (vec![448, 448, 480], vec![2]),
        (vec![480, 448, 480], vec![0, 2]),
        (vec![480, 480, 480], vec![0, 1, 2]),
    ] {
        let requests: Vec<Vec<u8>> = lengths.iter().map(|length| request_of(*length)).collect();
        for request in &requests {
            batch.push(request).expect("there is room");
        }
        assert_eq!(batch.answer(1_000, 3), Ok(due.len()), "{lengths:?}");
        assert!(batch.answers().map(|(place, _)| place).eq(due), "{lengths:?}");
        for (place, response) in batch.answers() {
            assert!(response.len() <= lengths[place]);
            assert!(trawlbeacon::check_signed(&key, &requests[place], response).is_ok());
        }
        batch.clear();
    }
}

/// The type that holds the slots: packets that are pushed or received, answered, and forgotten, as
/// many as there is room for.
#[test]
fn a_batch_is_filled_and_answered_again_and_again() {
    let (mut batch, key) = batch(1_000);
    assert_eq!(batch.answer(1_000, 3), Err(Refusal::Leaves.into()));
    for round in 0..3 {
        for place in 0..MOST_LEAVES {
            let mut request = [0; REQUEST_LENGTH];
            let nonce = trawlbeacon::leaf(&[round, place as u8, (place >> 8) as u8]);
            trawlbeacon::write_request(&key, &nonce, &mut request).expect("there is room");
            // Every third is not to be answered: too long, cut off, or said to be longer than its slot.
            match place % 9 {
                2 => batch.push(&[0; SLOT + 1]).expect("there is room"),
                5 => batch.push(&request[..1000]).expect("there is room"),
                8 => batch.received(usize::MAX),
                _ => {
                    let slot = batch.slot().expect("there is room");
                    slot[..REQUEST_LENGTH].copy_from_slice(&request);
                    batch.received(REQUEST_LENGTH);
                }
            }
        }
        assert!(batch.slot().is_none());
        assert_eq!(batch.push(&[]), Err(Refusal::Leaves));
        batch.received(4);
        assert_eq!(batch.len(), MOST_LEAVES);
        assert_eq!(batch.answer(1_000, 0), Err(Refusal::Value.into()));
        assert_eq!(batch.answers().count(), 0);
        assert_eq!(batch.answer(1_001, 3), Err(Refusal::Time.into()));
        let due = (0..MOST_LEAVES).filter(|place| place % 3 != 2);
        assert_eq!(batch.answer(1_000, 3), Ok(due.clone().count()));
        assert!(batch.answers().map(|(place, _)| place).eq(due));
        for (place, response) in batch.answers().step_by(100) {
            let request = batch.packet(place).expect("it is there");
            assert!(response.len() <= answer_room(CERT_LENGTH));
            assert!(trawlbeacon::check_signed(&key, request, response).is_ok());
        }
        batch.clear();
        assert!(batch.is_empty() && batch.answers().next().is_none());
    }
    assert_eq!(format!("{batch:?}"), "Batch { waiting: 0, .. }");
}
