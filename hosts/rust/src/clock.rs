//! The time, though a server lies.

use crate::raw::{self, tb_clock, tb_time};
use crate::{check_signed, Checked, PacketRefusal, Refusal, Window};

/// The most servers of a clock.
pub const CLOCK_SERVERS: usize = 8;

/// Windows of up to 8 servers, and what time it is by them, where some of the servers may lie. Of
/// each server the two newest windows are kept, so that it has one size for any number of them.
///
/// Its moments are microseconds of the host's own clock: one that only goes forward, and goes on
/// while the machine sleeps (`CLOCK_BOOTTIME` on Linux). Round `sent` down and `received` up. Where a
/// request was sent more than once, `sent` is when its *first* copy was: whoever sits in between may
/// have held back the answer to that one.
///
/// ```
/// use trawlbeacon::{Clock, Window};
///
/// let window =
///     |midp| Window { midp, radi: 3, low: midp - 3, high: midp + 3, mint: 0, maxt: 5000 };
/// // The host's own clock may be off by 100 parts of a million.
/// let mut clock = Clock::start(100)?;
/// // Three servers are asked at once. The last one is nine seconds ahead.
/// clock.take(0, &window(1000), 70_000, 110_000)?;
/// clock.take(1, &window(1001), 70_000, 120_000)?;
/// clock.take(2, &window(1009), 70_000, 170_000)?;
///
/// // One of them may lie. A second later it is from 999.05 to 1004.1 seconds after 1970, and
/// // somewhat more for the drift.
/// let time = clock.now(1_170_000, 1)?;
/// assert_eq!((time.low, time.high), (999_049_895, 1_004_100_110));
/// assert_eq!((time.agree.bits(), time.suspects.bits()), (0b011, 0b100));
/// assert!(time.is_exact(1));
/// // That none of them lies cannot be.
/// assert_eq!(clock.now(1_170_000, 0), Err(trawlbeacon::Refusal::NoAgreement));
/// # Ok::<(), trawlbeacon::Refusal>(())
/// ```
#[derive(Clone, Copy, Debug, PartialEq, Eq)]
pub struct Clock {
    state: tb_clock,
}

/// The time at a moment of the host's own clock.
#[derive(Clone, Copy, Debug, PartialEq, Eq)]
pub struct Time {
    /// It is not before this, in microseconds since 1970.
    pub low: u64,
    /// Nor after this, unless it `stopped`.
    pub high: u64,
    /// Whether `high` is 2^64 - 1, where an end stops: the time may be later.
    pub stopped: bool,
    /// How many servers were counted: those with a window that may still be used.
    pub counted: usize,
    /// Those of them whose windows meet this time.
    pub agree: Servers,
    /// Those whose windows do not. Each of them lies, if no more lie than was said.
    pub suspects: Servers,
}

impl Time {
    /// Whether less than half of the servers that were counted may lie. Then no liar has moved an
    /// end further than some honest server's span allows; else one may have, though the time
    /// is still between the two.
    #[must_use]
    pub fn is_exact(&self, liars: u64) -> bool {
        // At most 8 are counted, so that nothing is lost.
        liars < self.counted as u64 && liars < self.counted as u64 - liars
    }
}

/// Some of the servers of a clock.
#[derive(Clone, Copy, Debug, Default, PartialEq, Eq)]
pub struct Servers {
    bits: u64,
}

impl Servers {
    /// As bits: server s is the bit 1 << s.
    #[must_use]
    pub fn bits(self) -> u64 {
        self.bits
    }

    /// Whether this server is one of them.
    #[must_use]
    pub fn contains(self, server: usize) -> bool {
        server < CLOCK_SERVERS && self.bits >> server & 1 == 1
    }

    /// Each of them, in order.
    pub fn iter(self) -> impl Iterator<Item = usize> {
        (0..CLOCK_SERVERS).filter(move |server| self.contains(*server))
    }

    /// Whether there is none.
    #[must_use]
    pub fn is_empty(self) -> bool {
        self.bits == 0
    }
}

impl Clock {
    /// A clock with no window. `drift` is the most that the host's own clock goes wrong, in parts
    /// per million.
    ///
    /// # Errors
    ///
    /// [`Refusal::ClockInput`] (32) where that is a million or more.
    pub fn start(drift: u32) -> Result<Clock, Refusal> {
        let mut state = tb_clock::ZERO;
        Refusal::check(state.start(drift))?;
        Ok(Clock { state })
    }

    /// Takes the window of a valid response of a server, 0 to 7, whose request was first sent and
    /// which was received at these microseconds of the host's own clock.
    ///
    /// # Errors
    ///
    /// 32 where the server is above 7, and then 26 where the response was received before it was
    /// sent for, or before the last one that was taken of that server. The clock stays as it was.
    pub fn take(
        &mut self,
        server: usize,
        window: &Window,
        sent: u64,
        received: u64,
    ) -> Result<(), Refusal> {
        Refusal::check(self.state.take(server as u64, window, [sent, received]))
    }

    /// Checks a response by its signatures, as [`check_signed`] does under the server's long-term
    /// key, and takes its window: all that is done with a single exchange, in one call.
    ///
    /// # Errors
    ///
    /// Those of [`check_signed`], and then those of [`take`](Clock::take). The clock stays as it
    /// was.
    pub fn take_signed(
        &mut self,
        server: usize,
        key: &[u8; 32],
        request: &[u8],
        response: &[u8],
        sent: u64,
        received: u64,
    ) -> Result<Checked, PacketRefusal> {
        let checked = check_signed(key, request, response)?;
        self.take(server, &checked.window, sent, received)?;
        Ok(checked)
    }

    /// The time at a moment of the host's own clock, where at most `liars` of the servers that are
    /// counted lie. Of n servers that are asked, that is (n - 1) / 2 at the most.
    ///
    /// # Errors
    ///
    /// 26 where the moment is before something that was taken was received;
    /// [`Refusal::TooFew`] (33) where no more servers are counted than may lie; and
    /// [`Refusal::NoAgreement`] (34) where no time lies in the windows of enough of them: then more
    /// lie.
    pub fn now(&self, moment: u64, liars: u64) -> Result<Time, Refusal> {
        let tb_time { code, stopped, low, high, counted, agree, suspects } =
            self.state.now(moment, liars);
        Refusal::check(code)?;
        let [agree, suspects] = [agree, suspects].map(|bits| Servers { bits });
        // At most 8 are counted, so that nothing is lost.
        Ok(Time { low, high, stopped: stopped == 1, counted: counted as usize, agree, suspects })
    }

    /// Goes on with a state that was kept. One that no start led to does no harm, and what is then
    /// said means nothing; so does one of before the machine was started, whose moments were those
    /// of another clock.
    #[must_use]
    pub fn resume(state: tb_clock) -> Clock {
        Clock { state }
    }

    /// The state as it is, to be kept and gone on with.
    #[must_use]
    pub fn state(&self) -> tb_clock {
        self.state
    }
}

/// The three calls on a state of the host's own, as the header has them: the state crosses field by
/// field. [`Clock`] is made of them.
impl tb_clock {
    /// A clock that states no drift, with no window.
    pub const ZERO: tb_clock = tb_clock {
        drift: 0,
        low: [0; 16],
        high: [0; 16],
        maxt: [0; 16],
        sent: [0; 16],
        received: [0; 16],
    };

    /// `tb_clock_start`: the code.
    pub fn start(&mut self, drift: u32) -> u32 {
        // SAFETY: see raw.
        unsafe {
            raw::tb_clock_start_fields(
                &mut self.drift,
                &mut self.low,
                &mut self.high,
                &mut self.maxt,
                &mut self.sent,
                &mut self.received,
                drift,
            )
        }
    }

    /// `tb_clock_take`: the code. `when` is the microseconds at which the request was first sent and
    /// the response received.
    pub fn take(&mut self, server: u64, window: &Window, when: [u64; 2]) -> u32 {
        // SAFETY: see raw.
        unsafe {
            raw::tb_clock_take_fields(
                self.drift,
                &mut self.low,
                &mut self.high,
                &mut self.maxt,
                &mut self.sent,
                &mut self.received,
                server,
                window.low,
                window.high,
                window.maxt,
                when[0],
                when[1],
            )
        }
    }

    /// `tb_clock_now`.
    #[must_use]
    pub fn now(&self, moment: u64, liars: u64) -> tb_time {
        // SAFETY: see raw.
        unsafe {
            raw::tb_clock_now_fields(
                self.drift,
                &self.low,
                &self.high,
                &self.maxt,
                &self.sent,
                &self.received,
                moment,
                liars,
            )
        }
    }
}
