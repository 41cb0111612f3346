//! The measuring walk (draft 19, section 8.2; request P10): some servers are asked in turn, and then
//! the same ones in the same order once more. What each request and response was goes into a pile,
//! and the pile says at the end whether a server lied.

use crate::check::{self, Valid, Window};
use crate::ed25519::Ed25519;
use crate::hash::{self, Hash};
use crate::making;
use crate::pile::RECORD;
use crate::refusal::Refusal;
use crate::report::{self, NoReport};
use crate::signed;
use crate::write;
use std::ops::RangeInclusive;

/// How many servers a walk may have.
pub const SERVERS: RangeInclusive<usize> = 3..=8;

/// How often each of them is asked.
const ROUNDS: usize = 2;

/// What is kept between two packets.
#[derive(Clone, Debug, PartialEq, Eq)]
pub struct Walk {
    /// The long-term keys of the servers, in the order in which they are asked.
    pub servers: Vec<[u8; 32]>,
    /// How many responses were accepted.
    pub accepted: u64,
    /// The nonce of the request that is due.
    pub nonce: Hash,
    /// What that nonce was blinded with: zero for the first.
    pub rand: [u8; 32],
    /// The second at which the last accepted response came.
    pub last: u64,
    /// The longest that a response may take, in seconds.
    pub longest: u64,
}

/// Whom to ask.
#[derive(Clone, Copy, Debug, PartialEq, Eq)]
pub struct Asked {
    /// Which server, counted from 0.
    pub server: usize,
    /// The nonce of its request.
    pub nonce: Hash,
}

/// A response, and what the client knows about it.
#[derive(Clone, Copy, Debug)]
pub struct Heard<'a> {
    /// The packet.
    pub response: &'a [u8],
    /// Whether the signature of the delegation is right.
    pub delegation: bool,
    /// Whether the signature of the response is right.
    pub signature: bool,
    /// The second at which the request went out, by the client's clock.
    pub sent: u64,
    /// The second at which the response came in, by the same clock.
    pub received: u64,
    /// What the next nonce is to be blinded with.
    pub rand: [u8; 32],
}

/// A response that nothing is known about yet but when it came.
#[derive(Clone, Copy, Debug)]
pub struct Arrived<'a> {
    /// The packet.
    pub response: &'a [u8],
    /// The second at which the request went out, by the client's clock.
    pub sent: u64,
    /// The second at which the response came in, by the same clock.
    pub received: u64,
    /// What the next nonce is to be blinded with.
    pub rand: [u8; 32],
}

/// How a walk stands after a response that was accepted.
#[derive(Clone, Copy, Debug, PartialEq, Eq)]
pub enum Stand {
    /// There is another server to ask.
    GoesOn,
    /// It has ended, and no response contradicts another.
    Consistent,
    /// It has ended, and the responses of these two records contradict each other.
    Malfeasance(usize, usize),
    /// It has ended, but what stands in the buffer is not what the walk wrote there.
    Altered,
}

/// A response that was accepted.
#[derive(Clone, Copy, Debug, PartialEq, Eq)]
pub struct Taken {
    /// How the walk stands after it.
    pub stand: Stand,
    /// The window that it tells.
    pub window: Window,
}

impl Walk {
    /// A walk over the servers with these keys, 32 bytes each. `buffer` must have room for the whole
    /// pile, and is not written to.
    pub fn start(keys: &[u8], nonce: &Hash, longest: u64, buffer: &[u8]) -> Result<Walk, Refusal> {
        let chunks = keys.chunks(32).map(<[u8; 32]>::try_from);
        let servers: Vec<[u8; 32]> =
            chunks.collect::<Result<_, _>>().map_err(|_| Refusal::WalkServers)?;
        let mut sorted = servers.clone();
        sorted.sort_unstable();
        if !SERVERS.contains(&servers.len()) || sorted.windows(2).any(|pair| pair[0] == pair[1]) {
            return Err(Refusal::WalkServers);
        }
        let walk = Walk { servers, accepted: 0, nonce: *nonce, rand: [0; 32], last: 0, longest };
        walk.room(buffer)?;
        Ok(walk)
    }

    /// Which server each step asks, from the first step to the last. A walk that no start led to has
    /// no steps where it has too few servers or too many.
    fn order(&self) -> Vec<usize> {
        let count = self.servers.len();
        let round = 0..if SERVERS.contains(&count) { count } else { 0 };
        (0..ROUNDS).flat_map(|_| round.clone()).collect()
    }

    /// The server that is due, and its request.
    fn due(&self) -> Result<(usize, Vec<u8>), Refusal> {
        let step = usize::try_from(self.accepted).map_err(|_| Refusal::Ended)?;
        let server = *self.order().get(step).ok_or(Refusal::Ended)?;
        Ok((server, write::request(&self.servers[server], &self.nonce)))
    }

    /// The bytes of the pile in a buffer that can hold all of it.
    fn room(&self, buffer: &[u8]) -> Result<usize, Refusal> {
        let pile = self.order().len() * RECORD;
        (pile <= buffer.len()).then_some(pile).ok_or(Refusal::BufferTooShort)
    }

    /// Whom to ask, with the request at the front of `out`.
    pub fn ask(&self, out: &mut [u8]) -> Result<Asked, Refusal> {
        let (server, request) = self.due()?;
        write::put(&request, out)?;
        Ok(Asked { server, nonce: self.nonce })
    }

    /// Takes the response to the request that is due, and puts its record into the pile at the front
    /// of `buffer`. Where it is refused nothing is changed.
    pub fn take(&mut self, heard: &Heard, buffer: &mut [u8]) -> Result<Taken, Refusal> {
        let &Heard { response, delegation, signature, sent, received, rand } = heard;
        let arrived = Arrived { response, sent, received, rand };
        self.take_by(&arrived, buffer, |_, request| {
            check::check(request, response, delegation, signature)
        })
    }

    /// The same, with the signatures verified here, under the key of the server that is due
    /// (request P11).
    pub fn take_signed(
        &mut self,
        ed25519: &Ed25519,
        arrived: &Arrived,
        buffer: &mut [u8],
    ) -> Result<Taken, Refusal> {
        self.take_by(arrived, buffer, |key, request| {
            signed::check(ed25519, key, request, arrived.response)
        })
    }

    /// Takes a response that is checked so, by the key of the server that is due and its request.
    fn take_by(
        &mut self,
        arrived: &Arrived,
        buffer: &mut [u8],
        check: impl FnOnce(&[u8; 32], &[u8]) -> Result<Valid, Refusal>,
    ) -> Result<Taken, Refusal> {
        let (server, request) = self.due()?;
        let pile = self.room(buffer)?;
        let delay = arrived.received.checked_sub(arrived.sent).ok_or(Refusal::Clock)?;
        arrived.sent.checked_sub(self.last).ok_or(Refusal::Clock)?;
        self.longest.checked_sub(delay).ok_or(Refusal::Delay)?;
        let Valid { window, .. } = check(&self.servers[server], &request)?;

        let record = making::record(&self.servers[server], &self.rand, &request, arrived.response);
        let places = &mut buffer[..pile];
        let step = self.accepted as usize;
        places.chunks_mut(RECORD).nth(step).expect("it is a step").copy_from_slice(&record);
        self.accepted += 1;
        self.rand = arrived.rand;
        self.nonce = hash::link(arrived.response, &arrived.rand);
        self.last = arrived.received;
        let stand = if (step + 1) * RECORD == pile { ended(places) } else { Stand::GoesOn };
        Ok(Taken { stand, window })
    }
}

/// What a whole pile says of the servers, all of whose signatures were right.
fn ended(pile: &[u8]) -> Stand {
    match report::check(pile, &vec![1; 2 * (pile.len() / RECORD)]) {
        Ok((first, second)) => Stand::Malfeasance(first, second),
        Err(NoReport { refusal: Refusal::NoContradiction, .. }) => Stand::Consistent,
        Err(_) => Stand::Altered,
    }
}

#[cfg(test)]
mod tests {
    use super::*;
    use crate::making::Link;
    use crate::pieces::{put, Pieces};
    use crate::signing::Keys;
    use crate::tag::{NONC, SIG};
    use crate::{pile, request};

    const NONCE: Hash = [7; 32];

    fn keys(count: u8) -> Vec<u8> {
        (1..=count).flat_map(|number| [number; 32]).collect()
    }

    fn begun(count: u8, longest: u64) -> (Walk, Vec<u8>) {
        let buffer = vec![0xee; 2 * usize::from(count) * RECORD + 5];
        (Walk::start(&keys(count), &NONCE, longest, &buffer).unwrap(), buffer)
    }

    /// A response to what is due, in pieces.
    fn pieces(walk: &Walk, midp: u64, radi: u32) -> Pieces {
        let (server, request) = walk.due().unwrap();
        let link =
            Link { key: walk.servers[server], nonce: Some(walk.nonce), ..Link::new(0, midp, radi) };
        link.response(&request, &[])
    }

    fn heard(response: &[u8], sent: u64, received: u64) -> Heard<'_> {
        Heard { response, delegation: true, signature: true, sent, received, rand: [9; 32] }
    }

    fn code<T>(answer: Result<T, Refusal>) -> u32 {
        answer.map_or_else(Refusal::code, |_| 0)
    }

    #[test]
    fn three_to_eight_servers_each_once_and_room_for_their_pile() {
        let start = |keys: &[u8], room: usize| code(Walk::start(keys, &NONCE, 5, &vec![0; room]));
        for count in 0..=10 {
            let whole = 2 * usize::from(count) * RECORD;
            let fits = (3..=8).contains(&count);
            assert_eq!(start(&keys(count), whole), if fits { 0 } else { 31 }, "{count} servers");
            if fits {
                assert_eq!(start(&keys(count), whole - 1), 19, "{count} servers");
            }
        }
        assert_eq!(start(&keys(4)[..127], 9 * RECORD), 31);
        assert_eq!(start(&keys(4)[..97], 9 * RECORD), 31);
        for (first, second) in [(0, 1), (0, 7), (3, 4), (6, 7)] {
            let mut twice = keys(8);
            twice.copy_within(32 * first..32 * first + 32, 32 * second);
            assert_eq!(start(&twice, 0), 31, "servers {first} and {second}");
            twice[32 * second + 31] ^= 1;
            assert_eq!(start(&twice, 16 * RECORD), 0);
        }
    }

    /// The times of both rounds, and what the walk must say of them.
    fn walked(times: &[(u64, u32)]) -> Stand {
        let count = times.len() / 2;
        let (mut walk, mut buffer) = begun(count as u8, 5);
        let mut stand = Stand::GoesOn;
        for (step, (midp, radi)) in times.iter().enumerate() {
            assert_eq!(stand, Stand::GoesOn);
            let mut out = [0xaa; 1040];
            let asked = walk.ask(&mut out).unwrap();
            assert_eq!((asked.server, asked.nonce), (step % count, walk.nonce));
            assert_eq!(request::read(&out[..1036]).unwrap().nonc, asked.nonce);
            assert_eq!(out[1036..], [0xaa; 4]);
            let response = pieces(&walk, *midp, *radi).packet();
            let taken =
                walk.take(&heard(&response, step as u64, step as u64), &mut buffer).unwrap();
            stand = taken.stand;
            assert_eq!((taken.window.midp, taken.window.radi), (*midp, *radi));
            assert_eq!(walk.nonce, hash::link(&response, &[9; 32]));
            let written = &buffer[..(step + 1) * RECORD];
            let judged = pile::judge_all(written, &vec![1; 2 * step + 2]).unwrap();
            assert!(judged.iter().all(Result::is_ok), "step {step}");
            assert!(step == 0 || pile::linked(written, step));
            assert!(buffer[(step + 1) * RECORD..].iter().all(|byte| *byte == 0xee));
        }
        assert_eq!(code(walk.ask(&mut [])), 28);
        assert_eq!(code(walk.take(&heard(&[], 1, 0), &mut [])), 28);
        stand
    }

    #[test]
    fn every_server_is_asked_twice_and_the_pile_says_who_lied() {
        assert_eq!(walked(&[(1000, 5); 6]), Stand::Consistent);
        assert_eq!(walked(&[(1000, 5); 16]), Stand::Consistent);
        // The last server lags behind by more than both radii: seen in the second round alone.
        let mut times = [(1000, 5), (1000, 5), (995, 5), (1000, 5), (1000, 5), (989, 5)];
        assert_eq!(walked(&times), Stand::Malfeasance(4, 5));
        times[5].0 = 990;
        assert_eq!(walked(&times), Stand::Consistent);
        // The first one is ahead by more than the last in the same round can be right.
        times[0].0 = 1006;
        assert_eq!(walked(&times), Stand::Malfeasance(0, 2));
    }

    #[test]
    fn clocks_and_delays_at_their_ends() {
        let (mut walk, mut buffer) = begun(3, 5);
        let response = pieces(&walk, 1000, 5).packet();
        let mut at = |walk: &mut Walk, sent, received| {
            let before = (walk.clone(), buffer.clone());
            let code = code(walk.take(&heard(&response, sent, received), &mut buffer));
            assert!(code == 0 || (walk.clone(), buffer.clone()) == before);
            code
        };
        assert_eq!(at(&mut walk, 100, 99), 26);
        assert_eq!(at(&mut walk, u64::MAX, 0), 26);
        assert_eq!(at(&mut walk, 100, 106), 27);
        assert_eq!(at(&mut walk, 0, u64::MAX), 27);
        assert_eq!(at(&mut walk, 100, 105), 0);
        // The old response is no answer to the new nonce.
        assert_eq!(at(&mut walk, 104, 200), 26);
        assert_eq!(at(&mut walk, 105, 111), 27);
        assert_eq!(at(&mut walk, 105, 105), 9);
    }

    /// Each rule is broken in turn, from the last to the first: the new damage counts.
    #[test]
    fn the_first_refusal_counts() {
        let (mut walk, mut buffer) = begun(4, 5);
        let response = pieces(&walk, 1000, 5).packet();
        let mut bad = Heard { signature: false, ..heard(&response, 100, 100) };
        assert_eq!(code(walk.take(&bad, &mut buffer)), 13);
        bad.delegation = false;
        assert_eq!(code(walk.take(&bad, &mut buffer)), 12);
        bad.response = &response[..11];
        assert_eq!(code(walk.take(&bad, &mut buffer)), 1);
        bad.received = 106;
        assert_eq!(code(walk.take(&bad, &mut buffer)), 27);
        (bad.received, walk.last) = (200, 101);
        assert_eq!(code(walk.take(&bad, &mut buffer)), 26);
        assert_eq!(code(walk.take(&bad, &mut buffer[..8 * RECORD - 1])), 19);
        assert_eq!(code(walk.ask(&mut [0; 1035])), 19);
        walk.accepted = 8;
        assert_eq!(code(walk.take(&bad, &mut [])), 28);
        assert_eq!(code(walk.ask(&mut [])), 28);
        assert!(buffer.iter().all(|byte| *byte == 0xee));
    }

    #[test]
    fn signatures_are_verified_under_the_key_of_the_server_that_is_due() {
        let ed25519 = Ed25519::new();
        let servers: Vec<Keys> =
            (1..=3).map(|seed| Keys::new(&ed25519, [seed; 32], [seed + 9; 32])).collect();
        let keys: Vec<u8> = servers.iter().flat_map(|server| server.long_term.public).collect();
        let mut buffer = vec![0xee; 6 * RECORD];
        let mut walk = Walk::start(&keys, &NONCE, 5, &buffer).unwrap();
        let mut take = |walk: &mut Walk, server: &Keys, forge: fn(&mut Pieces), sent, received| {
            let mut pieces = pieces(walk, 1000, 5);
            server.sign(&ed25519, &mut pieces);
            forge(&mut pieces);
            let response = pieces.packet();
            let arrived = Arrived { response: &response, sent, received, rand: [9; 32] };
            let taken = walk.take_signed(&ed25519, &arrived, &mut buffer);
            taken.map(|taken| taken.stand).map_err(Refusal::code)
        };
        let right = |_: &mut Pieces| ();
        for step in 0..6 {
            let (own, next) = (&servers[step % 3], &servers[(step + 1) % 3]);
            assert_eq!(take(&mut walk, next, right, 7, 7), Err(12));
            assert_eq!(take(&mut walk, own, |it| put(&mut it.cert, SIG, &[1; 64]), 7, 7), Err(12));
            assert_eq!(take(&mut walk, own, |it| put(&mut it.outer, SIG, &[1; 64]), 7, 7), Err(13));
            assert_eq!(
                take(&mut walk, next, |it| put(&mut it.outer, NONC, &[1; 32]), 7, 7),
                Err(9)
            );
            assert_eq!(take(&mut walk, next, right, 7, 13), Err(27));
            assert_eq!(take(&mut walk, next, right, 7, 6), Err(26));
            let stand = if step < 5 { Stand::GoesOn } else { Stand::Consistent };
            assert_eq!(take(&mut walk, own, right, 7, 7), Ok(stand));
        }
        let nothing = Arrived { response: &[], sent: 7, received: 6, rand: [9; 32] };
        assert_eq!(code(walk.take_signed(&ed25519, &nothing, &mut [])), 28);
    }

    #[test]
    fn a_walk_that_no_start_led_to_ends_too() {
        let (walk, mut buffer) = begun(3, u64::MAX);
        for accepted in [6, 7, 1 << 32, u64::MAX] {
            assert_eq!(code(Walk { accepted, ..walk.clone() }.ask(&mut [])), 28);
        }
        for servers in [vec![], vec![[1; 32]; 2], vec![[1; 32]; 9]] {
            assert_eq!(code(Walk { servers, ..walk.clone() }.ask(&mut [])), 28);
        }
        // At its last step it has written nothing but that one record.
        let mut last = Walk { accepted: 5, ..walk };
        let response = pieces(&last, 1000, 5).packet();
        let taken = last.take(&heard(&response, 0, 0), &mut buffer).unwrap();
        assert_eq!((taken.stand, taken.window.high), (Stand::Altered, 1005));
        assert_eq!(last.accepted, 6);
    }
}
