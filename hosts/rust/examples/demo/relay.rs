//! A network that loses, damages and delays packets, in the place of one that would do it by itself.

use super::running::{self, Running};
use super::teller::Teller;
use std::net::SocketAddr;
use std::sync::{Arc, Mutex};
use std::time::Duration;
use std::{io, thread};
use trawlbeacon::LONGEST_PACKET;

/// One packet in so many is lost, one in so many is damaged, and one in so many is delayed.
pub const ONE_IN: u64 = 10;

/// The longest delay, in milliseconds.
const LONGEST: u64 = 400;

/// What becomes of a packet.
#[derive(Clone, Copy, Debug, PartialEq, Eq)]
enum Fate {
    Passes,
    IsLost,
    /// This bit of it is turned, counted on from the first one.
    IsDamaged(usize),
    /// It comes so many milliseconds late.
    IsDelayed(u64),
}

/// What becomes of one packet after the other. With the same seed it is the same.
struct Fates {
    state: u64,
}

impl Fates {
    /// Those of one way of many.
    fn new(seed: u64, way: u64) -> Fates {
        Fates { state: mixed(seed ^ mixed(way)) }
    }

    /// That of the next packet, which has so many bytes.
    fn next(&mut self, length: usize) -> Fate {
        self.state = self.state.wrapping_add(0x9e37_79b9_7f4a_7c15);
        let drawn = mixed(self.state);
        match drawn % ONE_IN {
            0 => Fate::IsLost,
            // A packet has under 2^16 bytes, so that nothing is lost.
            1 if length > 0 => Fate::IsDamaged((drawn / ONE_IN % (8 * length as u64)) as usize),
            2 => Fate::IsDelayed(1 + drawn / ONE_IN % LONGEST),
            _ => Fate::Passes,
        }
    }
}

/// The mixing step of splitmix64: an even spread is all that is wanted of it.
fn mixed(word: u64) -> u64 {
    let word = (word ^ word >> 30).wrapping_mul(0xbf58_476d_1ce4_e5b9);
    let word = (word ^ word >> 27).wrapping_mul(0x94d0_49bb_1331_11eb);
    word ^ word >> 31
}

/// One way through the network.
struct Way {
    what: String,
    fates: Fates,
    teller: Teller,
}

impl Way {
    /// Sends the packet on, as it is or damaged, now or later or not at all.
    fn carry(&mut self, packet: &mut [u8], send: impl FnOnce(&[u8]) + Send + 'static) {
        let says = |what: String| self.teller.says("network", what);
        match self.fates.next(packet.len()) {
            Fate::Passes => send(packet),
            Fate::IsLost => says(format!("loses {}", self.what)),
            Fate::IsDamaged(bit) => {
                packet[bit / 8] ^= 1 << (bit % 8);
                says(format!("damages {}: a bit of byte {}", self.what, bit / 8));
                send(packet);
            }
            Fate::IsDelayed(millis) => {
                says(format!("delays {} by {millis} ms", self.what));
                let packet = packet.to_vec();
                thread::spawn(move || {
                    thread::sleep(Duration::from_millis(millis));
                    send(&packet);
                });
            }
        }
    }
}

/// The network in front of one server, until this is dropped.
pub struct Relay {
    /// Where the server is asked through it.
    pub address: SocketAddr,
    _there: Running,
    _back: Running,
}

impl Relay {
    /// Puts it in front of the server with this name and address. `place` tells it from others of
    /// the same seed.
    pub fn start(
        name: &str,
        server: SocketAddr,
        (seed, place): (u64, u64),
        teller: Teller,
    ) -> io::Result<Relay> {
        let way = |what: String, way| Way { what, fates: Fates::new(seed, way), teller };
        let mut there = way(format!("the request to {name}"), 2 * place);
        let mut back = way(format!("{name}'s answer"), 2 * place + 1);
        let (front, behind) = (running::socket()?, running::socket()?);
        behind.connect(server)?;
        let address = front.local_addr()?;
        let (front_back, behind_back) = (front.try_clone()?, behind.try_clone()?);
        let asker = Arc::new(Mutex::new(server));
        let last_asker = Arc::clone(&asker);
        let _there = Running::start(move || {
            let mut packet = [0; LONGEST_PACKET + 1];
            let Ok((length, from)) = front.recv_from(&mut packet) else { return };
            *asker.lock().expect("no thread panics with it") = from;
            let Ok(behind) = behind.try_clone() else { return };
            there.carry(&mut packet[..length], move |packet| drop(behind.send(packet)));
        });
        let _back = Running::start(move || {
            let mut packet = [0; LONGEST_PACKET + 1];
            let Ok(length) = behind_back.recv(&mut packet) else { return };
            let to = *last_asker.lock().expect("no thread panics with it");
            let Ok(front) = front_back.try_clone() else { return };
            back.carry(&mut packet[..length], move |packet| drop(front.send_to(packet, to)));
        });
        Ok(Relay { address, _there, _back })
    }
}

#[cfg(test)]
mod tests {
    use super::*;

    #[test]
    fn a_seed_has_one_fate_for_each_packet() {
        let fates = |seed, way| {
            let mut fates = Fates::new(seed, way);
            (0..8_000).map(|_| fates.next(1036)).collect::<Vec<Fate>>()
        };
        assert_eq!(fates(1, 2), fates(1, 2));
        assert_ne!(fates(1, 2), fates(1, 3));
        assert_ne!(fates(1, 2), fates(2, 2));
        let lost = fates(1, 2).iter().filter(|fate| **fate == Fate::IsLost).count();
        let damaged = fates(1, 2).iter().filter(|fate| matches!(fate, Fate::IsDamaged(_))).count();
        let delayed = fates(1, 2).iter().filter(|fate| matches!(fate, Fate::IsDelayed(_))).count();
        assert!([lost, damaged, delayed].iter().all(|count| (600..1_000).contains(count)));
    }

    #[test]
    fn the_bit_that_is_turned_is_one_of_the_packet() {
        let mut fates = Fates::new(3, 4);
        for length in (0..20).cycle().take(10_000) {
            assert!(!matches!(fates.next(length), Fate::IsDamaged(bit) if bit >= 8 * length));
        }
    }
}
