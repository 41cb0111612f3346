//! Many datagrams by one call of the system, each answered from the address that it was sent to.
//!
//! On a machine with several addresses the system would otherwise choose which of them an answer
//! comes from, and a client takes none from another address than it asked.

use std::io::{self, ErrorKind};
use std::mem;
use std::os::raw::{c_int, c_uint, c_void};
use std::os::unix::io::RawFd;
use std::ptr;
use trawlbeacon::{Batch, MOST_LEAVES, SLOT};

const MSG_DONTWAIT: c_int = 0x40;

/// Level and type of what says to which address a packet was sent: IP_PKTINFO and IPV6_PKTINFO.
const FOUR: [c_int; 2] = [0, 8];
const SIX: [c_int; 2] = [41, 50];

/// How many packets are asked for at once: together a batch.
const STEPS: [usize; 3] = [32, 224, MOST_LEAVES - 256];

/// Bytes of the longest address, and of the longest thing that is said beside a packet.
const NAME: usize = 28;
const BESIDE: usize = 64;

/// Bytes in front of what is said beside a packet: its length, its level and its type.
const HEAD: usize = 16;

#[repr(C)]
struct Piece {
    base: *mut c_void,
    length: usize,
}

/// A message as both calls take it: the system's `mmsghdr`, whose first part ends on a whole number
/// of 8 bytes.
#[repr(C)]
struct Header {
    name: *mut c_void,
    name_length: u32,
    pieces: *mut Piece,
    count: usize,
    beside: *mut c_void,
    beside_length: usize,
    flags: c_int,
}

#[repr(C)]
struct Many {
    header: Header,
    /// Bytes that were received or sent.
    length: c_uint,
}

extern "C" {
    fn recvmmsg(
        socket: c_int,
        messages: *mut Many,
        count: c_uint,
        flags: c_int,
        timeout: *mut c_void,
    ) -> c_int;
    fn sendmmsg(socket: c_int, messages: *mut Many, count: c_uint, flags: c_int) -> c_int;
}

const _: () = assert!(mem::size_of::<Header>() == 56 && mem::size_of::<Many>() == 64);

/// Whom a packet came from, and what the system said beside it.
#[repr(C, align(8))]
#[derive(Clone, Copy)]
struct Peer {
    beside: [u8; BESIDE],
    beside_length: usize,
    name: [u8; NAME],
    name_length: u32,
}

const NOBODY: Peer =
    Peer { beside: [0; BESIDE], beside_length: 0, name: [0; NAME], name_length: 0 };

impl Peer {
    /// Keeps of what was said beside the packet the address alone. By which interface it came is
    /// left out: the answer goes where its route leads.
    fn keep(&mut self, length: usize) {
        let number = |at: usize| {
            c_int::from_ne_bytes(self.beside[at..at + 4].try_into().expect("they are four"))
        };
        let interface = match [number(8), number(12)] {
            FOUR if length >= HEAD + 12 => HEAD,
            SIX if length >= HEAD + 20 => HEAD + 16,
            _ => {
                self.beside_length = 0;
                return;
            }
        };
        self.beside[interface..interface + 4].fill(0);
        self.beside_length = length;
    }
}

/// The memory that both calls work with, all of it taken at the start. It stays in the thread that
/// made it.
pub struct Post {
    peers: Vec<Peer>,
    /// The packets that answers are for, by their places.
    places: Vec<usize>,
    pieces: Vec<Piece>,
    messages: Vec<Many>,
}

/// How many answers were sent, and how many the system did not take.
#[derive(Clone, Copy, Debug, Default, PartialEq, Eq)]
pub struct Sent {
    pub sent: u64,
    pub failed: u64,
}

impl Post {
    pub fn new() -> Post {
        Post {
            peers: vec![NOBODY; MOST_LEAVES],
            places: Vec::with_capacity(MOST_LEAVES),
            pieces: Vec::with_capacity(MOST_LEAVES),
            messages: Vec::with_capacity(MOST_LEAVES),
        }
    }

    /// Receives what waits at the socket into an empty batch, and waits for nothing. Few are asked
    /// for first, since each takes some writing before the call.
    pub fn receive(&mut self, socket: RawFd, batch: &mut Batch) -> io::Result<usize> {
        for most in STEPS {
            match self.receive_some(socket, batch, most) {
                Ok(came) if came == most => {}
                Err(error) if batch.is_empty() => return Err(error),
                // There is no more, or there is an error, which the next call has again.
                _ => break,
            }
        }
        Ok(batch.len())
    }

    /// Receives up to so many behind those that are there.
    fn receive_some(&mut self, socket: RawFd, batch: &mut Batch, most: usize) -> io::Result<usize> {
        self.pieces.clear();
        let first = batch.len();
        let slot = |slot: &mut [u8]| Piece { base: slot.as_mut_ptr().cast(), length: SLOT };
        self.pieces.extend(batch.slots().chunks_exact_mut(SLOT).take(most).map(slot));
        self.messages.clear();
        for (peer, piece) in self.peers[first..].iter_mut().zip(&mut self.pieces) {
            (peer.name_length, peer.beside_length) = (NAME as u32, BESIDE);
            self.messages.push(message(peer, piece));
        }
        let (at, count) = (self.messages.as_mut_ptr(), self.messages.len() as c_uint);
        // SAFETY: each message has a name, a piece and room beside it of the lengths that it says,
        // which nobody else reads or writes during the call, and there are so many messages.
        let came = unsafe { recvmmsg(socket, at, count, MSG_DONTWAIT, ptr::null_mut()) };
        let came = usize::try_from(came).map_err(|_| io::Error::last_os_error())?;
        for (message, peer) in self.messages.iter().zip(&mut self.peers[first..]).take(came) {
            batch.received(message.length as usize);
            peer.name_length = message.header.name_length.min(NAME as u32);
            peer.keep(message.header.beside_length.min(BESIDE));
        }
        Ok(came)
    }

    /// Sends each answer to whom the packet at its place came from.
    pub fn send<'a>(
        &mut self,
        socket: RawFd,
        answers: impl Iterator<Item = (usize, &'a [u8])> + 'a,
    ) -> Sent {
        self.pieces.clear();
        self.places.clear();
        for (place, bytes) in answers {
            // The system only reads what is sent.
            let base = bytes.as_ptr().cast_mut().cast();
            self.pieces.push(Piece { base, length: bytes.len() });
            self.places.push(place);
        }
        self.messages.clear();
        for (place, piece) in self.places.iter().zip(&mut self.pieces) {
            self.messages.push(message(&mut self.peers[*place], piece));
        }
        self.send_all(socket)
    }

    /// Sends the messages, in as few calls as the system takes.
    fn send_all(&mut self, socket: RawFd) -> Sent {
        let (mut done, mut sent) = (0, Sent::default());
        while let Some(left) = self.messages.get_mut(done..).filter(|left| !left.is_empty()) {
            // SAFETY: as above; the answers outlive the call of `send` that lent them.
            let told = unsafe { sendmmsg(socket, left.as_mut_ptr(), left.len() as c_uint, 0) };
            match usize::try_from(told) {
                Ok(count) => {
                    sent.sent += count as u64;
                    done += count;
                }
                Err(_) if io::Error::last_os_error().kind() == ErrorKind::Interrupted => {}
                // It is the first of them that could not be sent.
                Err(_) => {
                    sent.failed += 1;
                    done += 1;
                }
            }
        }
        sent
    }
}

fn message(peer: &mut Peer, piece: &mut Piece) -> Many {
    let beside = if peer.beside_length == 0 { ptr::null_mut() } else { peer.beside.as_mut_ptr() };
    let header = Header {
        name: peer.name.as_mut_ptr().cast(),
        name_length: peer.name_length,
        pieces: piece,
        count: 1,
        beside: beside.cast(),
        beside_length: peer.beside_length,
        flags: 0,
    };
    Many { header, length: 0 }
}
