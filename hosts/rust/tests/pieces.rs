//! A message in pieces: however it is cut, its digest must be that of the whole, which NIST's file or
//! the independent implementation says.

mod support;

use independent::hash;
use std::io::Write;
use support::Xorshift;
use trawlbeacon::raw::tb_running;
use trawlbeacon::{Refusal, Sha512};

/// Lengths around those at which a block is filled or its padding needs another one.
const LENGTHS: [usize; 9] = [0, 1, 111, 112, 127, 128, 129, 255, 256];

fn fed(mut hash: Sha512, pieces: &[&[u8]]) -> Sha512 {
    for piece in pieces {
        hash.update(piece).expect("these are far fewer than 2^64 bytes");
    }
    hash
}

#[test]
fn every_cut_of_nists_messages_into_two() {
    for (file, expected) in [("SHA512ShortMsg.rsp", 129), ("SHA512LongMsg.rsp", 128)] {
        let entries = support::nist(file);
        assert_eq!(entries.len(), expected, "{file} has another number of entries");
        let mut cuts = 0;
        for entry in &entries {
            for cut in 0..=entry.message.len() {
                let (first, second) = entry.message.split_at(cut);
                let hash = fed(Sha512::new(), &[first, second]);
                assert_eq!(
                    hash.finish()[..],
                    entry.digest,
                    "{file}: {} bytes cut at {cut}",
                    entry.message.len()
                );
                cuts += 1;
            }
        }
        println!("{file}: {expected} messages, {cuts} cuts into two, all have NIST's digests");
    }
}

#[test]
fn random_cuts() {
    let mut random = Xorshift::new(0x5eed_0501);
    let mut pieces = 0;
    for i in 0..100_000 {
        let count = random.below(21);
        let message: Vec<Vec<u8>> = (0..count)
            .map(|_| {
                let length = random.pick(&LENGTHS);
                random.bytes(length)
            })
            .collect();
        let cut: Vec<&[u8]> = message.iter().map(Vec::as_slice).collect();
        let whole = message.concat();
        let hash = fed(Sha512::new(), &cut);
        assert_eq!(hash.finish(), independent::sha512::sha512(&whole), "message {i}");
        let leaf = fed(Sha512::leaf(), &cut);
        assert_eq!(leaf.finish_hash(), hash::leaf(&whole), "leaf {i}");
        let rand = random.array();
        let link = fed(hash, &[&rand]);
        assert_eq!(link.finish_hash(), hash::link(&whole, &rand), "link {i}");
        pieces += count;
    }
    println!(
        "random cuts: 100000 messages in {pieces} pieces, each with its leaf and its link, ours \
         compared with independent's whole"
    );
}

#[test]
fn finishing_takes_nothing_from_the_state() {
    let mut random = Xorshift::new(0x5eed_0502);
    let mut hash = Sha512::new();
    let mut whole = Vec::new();
    for i in 0..2_000 {
        let length = random.pick(&LENGTHS);
        let piece = random.bytes(length);
        assert_eq!(hash.write(&piece).expect("a write is a piece"), length);
        whole.extend_from_slice(&piece);
        let before = hash.state();
        assert_eq!(hash.finish(), hash.finish(), "piece {i}, finished twice");
        assert_eq!(hash.finish_hash()[..], hash.finish()[..32], "piece {i}");
        assert_eq!(hash.state(), before, "piece {i}, the state after it was finished");
        if i % 100 == 0 {
            assert_eq!(hash.finish(), independent::sha512::sha512(&whole), "piece {i}");
        }
    }
    assert_eq!(hash.finish(), independent::sha512::sha512(&whole));
    println!("2000 pieces, finished after each, the state as it was, and gone on with");
}

/// A state that says it has had so many bytes.
fn counted(count: u64, random: &mut Xorshift) -> tb_running {
    let mut state = fed(Sha512::new(), &[&random.bytes(300)]).state();
    state.count = count;
    state
}

#[test]
fn more_than_the_count_can_say() {
    let mut random = Xorshift::new(0x5eed_0503);
    let (mut refused, mut taken) = (0, 0);
    for room in (0..=300).chain([511, 512, 513, 1_000]) {
        let state = counted(u64::MAX - room, &mut random);
        for length in [0, 1, 127, 128, 129, 300, 1_001, room, room + 1, room + 128] {
            let mut hash = Sha512::from(state);
            let piece = random.bytes(length as usize);
            if length > room {
                assert_eq!(hash.update(&piece), Err(Refusal::Pieces), "{length} into {room}");
                assert_eq!(Refusal::Pieces.code(), 30);
                assert_eq!(hash.state(), state, "{length} into {room}: the state stays");
                refused += 1;
            } else {
                assert_eq!(hash.update(&piece), Ok(()), "{length} into {room}");
                assert_eq!(hash.state().count, state.count + length, "{length} into {room}");
                taken += 1;
            }
        }
    }
    assert!(Sha512::from(counted(u64::MAX, &mut random)).write(&[1]).is_err());
    println!("around 2^64 - 1 bytes: {refused} pieces refused with 30, {taken} taken");
}

/// A state that no start led to: the same answer to the same bytes, and the same digest where the
/// piece is cut in two. What that answer is, is proved and not tried here.
#[test]
fn made_up_states_do_no_harm() {
    let mut random = Xorshift::new(0x5eed_0504);
    for i in 0..20_000 {
        let mut state = tb_running { h: [0; 8], rest: [0; 128], count: random.next() };
        state.h.iter_mut().for_each(|word| *word = random.next());
        state.rest.copy_from_slice(&random.bytes(128));
        let length = random.pick(&LENGTHS);
        let piece = random.bytes(length);
        let (mut one, mut other) = (Sha512::from(state), Sha512::from(state));
        assert_eq!(one.update(&piece), other.update(&piece), "state {i}");
        assert_eq!(one.state(), other.state(), "state {i}");
        assert_eq!(one.finish(), other.finish(), "state {i}");
        // In two pieces it has the same digest.
        let mut cut = Sha512::from(state);
        let (first, second) = piece.split_at(random.below(length + 1));
        let both = cut.update(first).and_then(|()| cut.update(second));
        assert_eq!(both, Sha512::from(state).update(&piece), "state {i}, cut");
        if both.is_ok() {
            assert_eq!(cut.finish(), one.finish(), "state {i}, cut");
        }
    }
    println!("20000 made-up states: the same answers twice, and for a piece that is cut");
}
