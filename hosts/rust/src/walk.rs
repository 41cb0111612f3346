//! The measuring walk: servers that are asked in turn, and then again in the same order.

#[cfg(feature = "alloc")]
use alloc::{vec, vec::Vec};

use core::slice;

use crate::raw::{self, size, tb_asked, tb_took, tb_walk};
use crate::{Hash, PacketRefusal, Pair, Refusal, Window, RECORD_LENGTH, REQUEST_LENGTH};

/// The fewest servers of a walk.
pub const FEWEST_SERVERS: usize = 3;

/// The most servers of a walk. Its pile then has [`MOST_RECORDS`](crate::MOST_RECORDS) records,
/// [`MOST_PILE_LENGTH`](crate::MOST_PILE_LENGTH) bytes.
pub const MOST_SERVERS: usize = 8;

/// Whom to ask next, and what to send.
#[derive(Clone, Copy, Debug, PartialEq, Eq)]
pub struct Asked {
    /// Which server, from 0 in the order of the keys.
    pub server: usize,
    /// The nonce of the request.
    pub nonce: Hash,
    /// The request, as [`write_request`](crate::write_request) makes it.
    pub request: [u8; REQUEST_LENGTH],
}

/// What a host that verifies signatures itself has of a response beside its packet.
#[derive(Clone, Copy, Debug, PartialEq, Eq)]
pub struct Heard {
    /// Whether the delegation's signature verifies, as [`SignedParts`](crate::SignedParts) says.
    pub delegation: bool,
    /// Whether the response's signature does.
    pub signature: bool,
    /// When the request was sent, in seconds by the host's own clock.
    pub sent: u64,
    /// When the response was received, by the same clock.
    pub received: u64,
    /// 32 random bytes for the next request.
    pub rand: [u8; 32],
}

/// How a walk stands once a response is taken.
#[derive(Clone, Copy, Debug, PartialEq, Eq)]
#[must_use]
pub enum Outcome {
    /// There is another server to ask.
    GoesOn,
    /// It has ended, and the servers' answers are consistent.
    Consistent,
    /// It has ended, and these two records of its pile contradict each other, as
    /// [`check_report`](crate::check_report) names them: some server lied.
    Malfeasance(Pair),
    /// It has ended, but the pile is not what the walk wrote, and nothing is said of the servers.
    /// This can come only of a walk that was [resumed](Walk::resume).
    PileAltered,
}

/// What a walk says of a response that it took.
#[derive(Clone, Copy, Debug, PartialEq, Eq)]
#[must_use]
pub struct Taken {
    /// How the walk stands.
    pub outcome: Outcome,
    /// The window of the response: what the server that was [asked](Asked::server) said. The last
    /// one has it, too, whatever the walk ends in.
    pub window: Window,
}

/// A measuring walk (draft 19, section 8.2) over 3 to 8 servers: each is asked once, and then each
/// once more in the same order. It holds the state between packets and the pile of the records.
///
/// ```
/// use trawlbeacon::{Outcome, Walk};
/// # use independent::{ed25519::Ed25519, making::Link, signing::Keys};
/// # fn random() -> [u8; 32] { [7; 32] }
/// # fn now() -> u64 { 100 }
/// # let ed25519 = Ed25519::new();
/// # let servers = [1, 2, 3].map(|seed| Keys::new(&ed25519, [seed; 32], [9 + seed; 32]));
/// # let keys: Vec<[u8; 32]> = servers.iter().map(|server| server.long_term.public).collect();
/// # let exchange = |asked: &trawlbeacon::Asked| {
/// #     let link = Link { nonce: Some(asked.nonce), ..Link::new(0, 1000, 3) };
/// #     let mut pieces = link.response(&asked.request, &[]);
/// #     servers[asked.server].sign(&ed25519, &mut pieces);
/// #     pieces.packet()
/// # };
///
/// let mut walk = Walk::start(&keys, &random(), 5)?;
/// let mut outcome = Outcome::GoesOn;
/// while outcome == Outcome::GoesOn {
///     let asked = walk.ask()?;
///     let (sent, response, received) = (now(), exchange(&asked), now());
///     // What is refused changes nothing: a host waits, and the same is asked again.
///     if let Ok(taken) = walk.take_signed(&response, sent, received, &random()) {
///         assert_eq!((taken.window.low, taken.window.high), (997, 1003));
///         outcome = taken.outcome;
///     }
/// }
/// assert_eq!(outcome, Outcome::Consistent);
/// // A walk that has ended asks nothing more, so that the same loop ends for it, too.
/// assert_eq!(walk.ask(), Err(trawlbeacon::Refusal::Ended));
/// # assert_eq!(walk.pile().len(), 6 * trawlbeacon::RECORD_LENGTH);
/// # Ok::<(), trawlbeacon::PacketRefusal>(())
/// ```
///
/// The buffer of its pile is its own, or one that is lent or handed over
/// ([`start_in`](Walk::start_in)), as where there is no heap.
#[derive(Clone, Debug, PartialEq, Eq)]
pub struct Walk<Buffer = Own> {
    state: tb_walk,
    buffer: Buffer,
}

/// What holds a pile where nothing else is said.
#[cfg(feature = "alloc")]
type Own = Vec<u8>;
#[cfg(not(feature = "alloc"))]
type Own = [u8; crate::MOST_PILE_LENGTH];

#[cfg(feature = "alloc")]
impl Walk {
    /// A walk over the servers with these long-term keys, in their order, whose first request has
    /// this nonce. A response may take `longest` seconds.
    ///
    /// # Errors
    ///
    /// [`Refusal::WalkServers`] (31) where the servers are fewer than 3 or more than 8, or a key
    /// stands there twice.
    pub fn start(servers: &[[u8; 32]], nonce: &[u8; 32], longest: u64) -> Result<Walk, Refusal> {
        let buffer = vec![0; 2 * servers.len().min(MOST_SERVERS) * RECORD_LENGTH];
        Walk::start_in(servers, nonce, longest, buffer)
    }
}

impl<Buffer: AsRef<[u8]> + AsMut<[u8]>> Walk<Buffer> {
    /// What [`start`](Walk::start) does, with a buffer that is an array, say, or lent: two records a
    /// server. What it holds plays no part.
    ///
    /// # Errors
    ///
    /// 31 as there, and then [`Refusal::Room`] (19) where the buffer is too short.
    ///
    /// ```
    /// use trawlbeacon::{Refusal, Walk, RECORD_LENGTH};
    ///
    /// let (keys, mut pile) = ([[1; 32], [2; 32], [3; 32]], [0; 6 * RECORD_LENGTH]);
    /// let walk = Walk::start_in(&keys, &[7; 32], 5, &mut pile[..])?;
    /// assert_eq!((walk.ask()?.server, walk.pile().len()), (0, 0));
    /// let short = Walk::start_in(&keys, &[7; 32], 5, &mut pile[1..]);
    /// assert_eq!(short.err(), Some(Refusal::Room));
    /// # Ok::<(), Refusal>(())
    /// ```
    pub fn start_in(
        servers: &[[u8; 32]],
        nonce: &[u8; 32],
        longest: u64,
        buffer: Buffer,
    ) -> Result<Walk<Buffer>, Refusal> {
        let mut state = tb_walk::NONE;
        // SAFETY: the keys stand one after the other.
        let keys = unsafe { slice::from_raw_parts(servers.as_ptr().cast(), 32 * servers.len()) };
        Refusal::check(state.start(keys, nonce, longest, buffer.as_ref()))?;
        Ok(Walk { state, buffer })
    }

    /// Goes on with a state and a buffer that were kept: what [`state`](Walk::state) gave, and a
    /// buffer of two records a server that begins with what [`pile`](Walk::pile) gave. A state that
    /// no start led to does no harm, and what is then said means nothing.
    #[must_use]
    pub fn resume(state: tb_walk, buffer: Buffer) -> Walk<Buffer> {
        Walk { state, buffer }
    }

    /// Whom to ask next, and the request. Asking changes nothing.
    ///
    /// # Errors
    ///
    /// [`Refusal::Ended`] (28) where the walk has ended.
    pub fn ask(&self) -> Result<Asked, Refusal> {
        let mut request = [0; REQUEST_LENGTH];
        let asked = self.state.ask(&mut request);
        Refusal::check(asked.code)?;
        // A walk has at most 8 servers, so that nothing is lost.
        Ok(Asked { server: asked.server as usize, nonce: asked.nonce, request })
    }

    /// Takes the response to the request that is asked, and puts its record behind the others.
    ///
    /// # Errors
    ///
    /// The walk stays as it was. In this order:
    ///
    /// - 28, where the walk has ended;
    /// - 19, of a walk that was resumed, where its buffer has under two records a server;
    /// - 26, where the response was received before it was sent for, or sent for before the last one
    ///   was received;
    /// - 27, where it took too long;
    /// - 1 to 13, as [`check_response`](crate::check_response) has them.
    pub fn take(&mut self, response: &[u8], heard: &Heard) -> Result<Taken, PacketRefusal> {
        let answers = [heard.delegation, heard.signature].map(u32::from);
        let (when, pile) = ([heard.sent, heard.received], self.buffer.as_mut());
        of_took(self.state.take(answers, when, &heard.rand, response, pile))
    }

    /// The same with no answers: the response's two signatures are verified under the key of the
    /// server that is asked, as [`answers`](crate::answers) does. `sent` and `received` are when, in
    /// seconds by the host's own clock, the request was sent and the response received, and `rand`
    /// is 32 random bytes for the next request.
    ///
    /// # Errors
    ///
    /// As [`take`](Walk::take), where nothing is verified if another code than 12 and 13 refuses.
    pub fn take_signed(
        &mut self,
        response: &[u8],
        sent: u64,
        received: u64,
        rand: &[u8; 32],
    ) -> Result<Taken, PacketRefusal> {
        of_took(self.state.take_signed([sent, received], rand, response, self.buffer.as_mut()))
    }

    /// The records so far, one for each response that was taken. With answers that are all 1 they
    /// are what [`check_report`](crate::check_report) and [`cut`](crate::cut) take.
    #[must_use]
    pub fn pile(&self) -> &[u8] {
        let buffer = self.buffer.as_ref();
        let room = buffer.len() / RECORD_LENGTH;
        let taken = usize::try_from(self.state.step).map_or(room, |step| step.min(room));
        &buffer[..taken * RECORD_LENGTH]
    }

    /// The state as it is, to be kept and gone on with.
    #[must_use]
    pub fn state(&self) -> tb_walk {
        self.state
    }
}

/// The four calls on a state of the host's own, as the header has them: the state crosses field by
/// field, and everything else is lent. [`Walk`] is made of them.
impl tb_walk {
    /// The state of no walk: every call on it is refused with 28.
    pub const NONE: tb_walk = tb_walk {
        keys: [0; 256],
        count: 0,
        step: 0,
        nonce: [0; 32],
        rand: [0; 32],
        last: 0,
        most: 0,
    };

    /// `tb_walk_start`: the code. `servers` is their keys, one after the other.
    pub fn start(&mut self, servers: &[u8], nonce: &[u8; 32], longest: u64, pile: &[u8]) -> u32 {
        // SAFETY: see raw.
        unsafe {
            raw::tb_walk_start_fields(
                &mut self.keys,
                &mut self.count,
                &mut self.step,
                &mut self.nonce,
                &mut self.rand,
                &mut self.last,
                &mut self.most,
                servers.as_ptr(),
                size(servers.len()),
                nonce,
                longest,
                pile.as_ptr(),
                size(pile.len()),
            )
        }
    }

    /// `tb_walk_ask`.
    #[must_use]
    pub fn ask(&self, out: &mut [u8]) -> tb_asked {
        // SAFETY: see raw.
        unsafe {
            raw::tb_walk_ask_fields(
                &self.keys,
                self.count,
                self.step,
                &self.nonce,
                &self.rand,
                self.last,
                self.most,
                out.as_mut_ptr(),
                size(out.len()),
            )
        }
    }

    /// `tb_walk_take`, with the answers for the delegation's signature and for the response's: 1 is
    /// yes. `when` is the seconds at which the request was sent and the response received.
    pub fn take(
        &mut self,
        answers: [u32; 2],
        when: [u64; 2],
        next: &[u8; 32],
        response: &[u8],
        pile: &mut [u8],
    ) -> tb_took {
        // SAFETY: see raw.
        unsafe {
            raw::tb_walk_take_fields(
                &self.keys,
                self.count,
                &mut self.step,
                &mut self.nonce,
                &mut self.rand,
                &mut self.last,
                self.most,
                answers[0],
                answers[1],
                when[0],
                when[1],
                next,
                response.as_ptr(),
                size(response.len()),
                pile.as_mut_ptr(),
                size(pile.len()),
            )
        }
    }

    /// `tb_walk_take_signed`: the same with no answers.
    pub fn take_signed(
        &mut self,
        when: [u64; 2],
        next: &[u8; 32],
        response: &[u8],
        pile: &mut [u8],
    ) -> tb_took {
        // SAFETY: see raw.
        unsafe {
            raw::tb_walk_take_signed_fields(
                &self.keys,
                self.count,
                &mut self.step,
                &mut self.nonce,
                &mut self.rand,
                &mut self.last,
                self.most,
                when[0],
                when[1],
                next,
                response.as_ptr(),
                size(response.len()),
                pile.as_mut_ptr(),
                size(pile.len()),
            )
        }
    }
}

/// What a call of a taker answered.
fn of_took(took: tb_took) -> Result<Taken, PacketRefusal> {
    PacketRefusal::check(took.code, took.at)?;
    let tb_took { midp, radi, low, high, mint, maxt, .. } = took;
    let window = Window { midp, radi, low, high, mint, maxt };
    // A pair is of two records of the pile, so that nothing is lost.
    let outcome = match took.outcome {
        raw::TB_GOES_ON => Outcome::GoesOn,
        raw::TB_CONSISTENT => Outcome::Consistent,
        raw::TB_MALFEASANCE => {
            Outcome::Malfeasance(Pair { first: took.first as usize, second: took.second as usize })
        }
        _ => Outcome::PileAltered,
    };
    Ok(Taken { outcome, window })
}
