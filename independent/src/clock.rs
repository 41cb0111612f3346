//! The time, though a server lies: what up to 8 servers said is kept, and of a moment of the
//! client's own clock is told what time it then is, where at most so many of them lie.
//!
//! A server promises that at some moment between the request and the response it was from `low` to
//! `high` (draft 19, section 5.2.5). From then on the client's clock counts, as well as it can: so
//! the two ends drift apart. The answer is Marzullo's (1984): from the least point to the greatest
//! that lies in the spans of all the servers that are counted, less those that may lie.
//!
//! Everything is worked out in whole numbers of 128 bits, which have room to spare: the largest is
//! below 2^100.

use crate::refusal::Refusal;

/// The most servers of a clock.
pub const SERVERS: usize = 8;

/// Microseconds of a second, and parts of a whole: the drift is told in parts per million.
const MILLION: u128 = 1_000_000;

/// The last microsecond that can be told. An end that passes it stops there.
const LAST: u128 = u64::MAX as u128;

/// What a server said, and when.
#[derive(Clone, Copy, Debug, Default, PartialEq, Eq)]
pub struct Heard {
    /// The first second of the window, since 1970.
    pub low: u64,
    /// The last.
    pub high: u64,
    /// The last second for which the key that signed it is trusted. 0 where nothing was heard.
    pub maxt: u64,
    /// When its request was first sent, in microseconds of the client's own clock.
    pub sent: u64,
    /// When it was received, by the same clock.
    pub received: u64,
}

/// What is kept.
#[derive(Clone, Copy, Debug, PartialEq, Eq)]
pub struct Clock {
    /// How far the client's own clock goes wrong at the most, in parts per million.
    pub drift: u32,
    /// Of each server the newest that was heard, and the one before it.
    pub kept: [[Heard; 2]; SERVERS],
}

/// The points from one end to another. There are none where the first end is past the second.
#[derive(Clone, Copy, Debug, PartialEq, Eq)]
pub struct Span {
    /// The first.
    pub from: u128,
    /// The last.
    pub to: u128,
}

/// What servers agree on.
#[derive(Clone, Debug, PartialEq, Eq)]
pub struct Agreed {
    /// The moment at which they are counted.
    pub at: u64,
    /// Each server that is counted, with its span at that moment.
    pub counted: Vec<(usize, Span)>,
    /// From the least to the greatest point that lies in enough of the spans.
    pub span: Span,
}

/// What time it is.
#[derive(Clone, Debug, PartialEq, Eq)]
pub struct Time {
    /// In microseconds since 1970.
    pub low: u64,
    /// In microseconds since 1970.
    pub high: u64,
    /// Whether it may be later than `high`, since that is the last that can be told.
    pub stopped: bool,
    /// How many servers were counted.
    pub counted: usize,
    /// The servers whose spans meet what was agreed on.
    pub agree: Vec<usize>,
    /// The other ones of those that were counted.
    pub suspects: Vec<usize>,
}

impl Span {
    fn holds(&self, point: u128) -> bool {
        self.from <= point && point <= self.to
    }

    fn meets(&self, other: &Span) -> bool {
        self.from.max(other.from) <= self.to.min(other.to)
    }
}

/// What is left of one number without another.
fn less(from: u64, taken: u64) -> u128 {
    u128::from(from.saturating_sub(taken))
}

impl Clock {
    /// Nothing heard.
    pub fn start(drift: u32) -> Result<Clock, Refusal> {
        if u128::from(drift) >= MILLION {
            return Err(Refusal::ClockInput);
        }
        Ok(Clock { drift, kept: Default::default() })
    }

    /// Takes what a server said.
    pub fn take(&mut self, server: u64, heard: Heard) -> Result<(), Refusal> {
        let kept = usize::try_from(server).ok().and_then(|server| self.kept.get_mut(server));
        let Some([newest, before]) = kept else { return Err(Refusal::ClockInput) };
        if heard.received < heard.sent || heard.received < newest.received {
            return Err(Refusal::Clock);
        }
        (*newest, *before) = (heard, *newest);
        Ok(())
    }

    /// So many microseconds of the client's own clock, less what it may be too fast by; rounded
    /// down.
    fn least(&self, passed: u128) -> u128 {
        passed * MILLION.saturating_sub(self.drift.into()) / MILLION
    }

    /// The same with what it may be too slow by, rounded up.
    fn most(&self, passed: u128) -> u128 {
        let parts = passed * (MILLION + u128::from(self.drift));
        parts / MILLION + u128::from(parts % MILLION != 0)
    }

    /// What a window allows at a moment.
    fn span(&self, heard: &Heard, moment: u64) -> Span {
        let from = u128::from(heard.low) * MILLION + self.least(less(moment, heard.received));
        let to = u128::from(heard.high) * MILLION + self.most(less(moment, heard.sent));
        Span { from: from.min(LAST), to: to.min(LAST) }
    }

    /// What is kept of each server and can be used at a moment, since its high end is not past
    /// MAXT.
    pub fn usable(&self, moment: u64) -> Vec<(usize, Vec<Heard>)> {
        let usable = |heard: &Heard| {
            heard.maxt > 0 && self.span(heard, moment).to / MILLION <= u128::from(heard.maxt)
        };
        let of = |kept: &[Heard; 2]| kept.iter().copied().filter(usable).collect();
        let all = self.kept.iter().map(of).enumerate();
        all.filter(|(_, heard): &(usize, Vec<Heard>)| !heard.is_empty()).collect()
    }

    /// What the servers that are counted at a moment agree on, where so many of them may lie. They
    /// are counted as of when the newest that can be used was received.
    pub fn agreed(&self, moment: u64, liars: u64) -> Result<Agreed, Refusal> {
        if self.kept.iter().flatten().any(|heard| moment < heard.received) {
            return Err(Refusal::Clock);
        }
        let usable = self.usable(moment);
        let enough = (usable.len() as u64).saturating_sub(liars);
        if enough == 0 {
            return Err(Refusal::TooFew);
        }
        let received = usable.iter().flat_map(|(_, heard)| heard).map(|heard| heard.received);
        let at = received.max().expect("some are counted");
        let span = |heard: &[Heard]| {
            let spans = heard.iter().map(|heard| self.span(heard, at));
            spans.reduce(|one, two| Span { from: one.from.max(two.from), to: one.to.min(two.to) })
        };
        let span = |heard: &[Heard]| span(heard).expect("a server that is counted has a window");
        let counted: Vec<(usize, Span)> =
            usable.iter().map(|(server, heard)| (*server, span(heard))).collect();
        let span = enough_of(&counted, enough).ok_or(Refusal::NoAgreement)?;
        Ok(Agreed { at, counted, span })
    }

    /// The time at a moment, where so many of the servers that are counted may lie.
    pub fn now(&self, moment: u64, liars: u64) -> Result<Time, Refusal> {
        let Agreed { at, counted, span } = self.agreed(moment, liars)?;
        let passed = less(moment, at);
        let end = |end: u128| end.min(LAST) as u64;
        let (low, high) = (end(span.from + self.least(passed)), end(span.to + self.most(passed)));
        let (agree, suspects): (Vec<_>, Vec<_>) =
            counted.iter().partition(|(_, own)| own.meets(&span));
        let servers = |list: Vec<(usize, Span)>| list.iter().map(|(server, _)| *server).collect();
        let stopped = u128::from(high) == LAST;
        let counted = counted.len();
        Ok(Time { low, high, stopped, counted, agree: servers(agree), suspects: servers(suspects) })
    }
}

/// From the least to the greatest point that lies in so many of the spans at the least. Both are
/// ends of some span, and so all ends are tried.
fn enough_of(counted: &[(usize, Span)], enough: u64) -> Option<Span> {
    let depth = |point: u128| counted.iter().filter(|(_, span)| span.holds(point)).count() as u64;
    let mut ends: Vec<u128> =
        counted.iter().flat_map(|(_, Span { from, to })| [*from, *to]).collect();
    ends.sort_unstable();
    ends.retain(|end| depth(*end) >= enough);
    Some(Span { from: *ends.first()?, to: *ends.last()? })
}

#[cfg(test)]
mod tests {
    use super::*;
    use crate::course::Dice;

    const SECOND: u64 = 1_000_000;

    /// From `low` to `high`, trusted up to second 2000, with the moments in seconds.
    fn heard(low: u64, high: u64, sent: u64, received: u64) -> Heard {
        Heard { low, high, maxt: 2000, sent: sent * SECOND, received: received * SECOND }
    }

    /// A clock that goes wrong by 100 parts of a million, and what was heard of each server.
    fn clock(said: &[Heard]) -> Clock {
        let mut clock = Clock::start(100).unwrap();
        for (server, heard) in (0..).zip(said) {
            clock.take(server, *heard).unwrap();
        }
        clock
    }

    /// The two ends at a second of the client's clock, or the code.
    fn time(clock: &Clock, second: u64, liars: u64) -> Result<(u64, u64), u32> {
        let time = clock.now(second * SECOND, liars).map_err(Refusal::code)?;
        Ok((time.low, time.high))
    }

    #[test]
    fn a_window_is_as_wide_as_its_exchange_took_and_widens_by_the_drift() {
        let one = |sent, received| clock(&[heard(997, 1003, sent, received)]);
        assert_eq!(time(&one(10, 10), 10, 0), Ok((997_000_000, 1_003_000_000)));
        assert_eq!(time(&one(10, 12), 12, 0), Ok((997_000_000, 1_005_000_200)));
        assert_eq!(time(&one(10, 12), 112, 0), Ok((1_096_990_000, 1_105_010_200)));
        // Half a microsecond and less is rounded outwards.
        let ends = |moment| one(0, 0).now(moment, 0).map(|time| (time.low, time.high));
        assert_eq!(ends(1), Ok((997_000_000, 1_003_000_002)));
        assert_eq!(ends(10_000), Ok((997_009_999, 1_003_010_001)));
        assert_eq!(ends(10_001), Ok((997_009_999, 1_003_010_003)));
    }

    #[test]
    fn one_of_three_lies() {
        let said = [heard(1000, 1006, 5, 5), heard(1001, 1007, 5, 5), heard(1009, 1015, 5, 5)];
        let time = clock(&said).now(5 * SECOND, 1).unwrap();
        assert_eq!((time.low, time.high), (1_001_000_000, 1_006_000_000));
        assert_eq!((time.counted, time.agree, time.suspects), (3, vec![0, 1], vec![2]));
        assert_eq!(clock(&said).now(5 * SECOND, 0), Err(Refusal::NoAgreement));
        // With two of three that may lie, each of them is believed.
        let time = clock(&said).now(5 * SECOND, 2).unwrap();
        assert_eq!((time.low, time.high), (1_000_000_000, 1_015_000_000));
        assert_eq!((time.agree, time.suspects), (vec![0, 1, 2], vec![]));
        assert_eq!(clock(&said).now(5 * SECOND, 3), Err(Refusal::TooFew));
        assert_eq!(clock(&said).now(5 * SECOND, u64::MAX), Err(Refusal::TooFew));
        assert_eq!(clock(&[]).now(0, 0), Err(Refusal::TooFew));
    }

    /// As the drift widens both they would overlap at last, and one that is refused would become a
    /// time by waiting.
    #[test]
    fn servers_are_counted_when_the_newest_is_received() {
        let clock = clock(&[heard(100, 100, 0, 0), heard(101, 101, 0, 0)]);
        for second in [0, 5_000, 5_001, 10_000, 1_000_000] {
            let mut long = clock;
            long.kept.iter_mut().flatten().for_each(|heard| heard.maxt *= 1_000_000);
            assert_eq!(time(&long, second, 0), Err(34), "second {second}");
        }
    }

    #[test]
    fn the_two_newest_of_a_server_are_one_span_and_count_once() {
        let mut clock = clock(&[heard(1000, 1006, 5, 5)]);
        clock.take(0, heard(1005, 1011, 6, 6)).unwrap();
        assert_eq!(time(&clock, 6, 0), Ok((1_005_000_000, 1_007_000_100)));
        assert_eq!(time(&clock, 6, 1), Err(33));
        // Two that contradict each other leave nothing, and still count.
        clock.take(0, heard(1020, 1026, 7, 7)).unwrap();
        assert_eq!(time(&clock, 7, 0), Err(34));
        clock.take(1, heard(1000, 1010, 7, 7)).unwrap();
        let time = clock.now(7 * SECOND, 1).unwrap();
        assert_eq!((time.low, time.high), (1_000_000_000, 1_010_000_000));
        assert_eq!((time.counted, time.agree, time.suspects), (2, vec![1], vec![0]));
        // The third newest is forgotten.
        clock.take(0, heard(1019, 1020, 7, 7)).unwrap();
        assert_eq!(clock.kept[0].map(|heard| heard.low), [1019, 1020]);
        assert_eq!(clock.now(7 * SECOND, 1).unwrap().agree, [0, 1]);
    }

    #[test]
    fn nothing_is_used_past_maxt() {
        let late = heard(1987, 1993, 0, 0);
        assert_eq!(time(&clock(&[late]), 7, 0), Ok((1_993_999_300, 2_000_000_700)));
        assert_eq!(time(&clock(&[late]), 8, 0), Err(33));
        let both = clock(&[late, Heard { maxt: 3000, ..late }]);
        assert_eq!(both.now(8 * SECOND, 0).map(|time| time.agree), Ok(vec![1]));
        assert_eq!(time(&clock(&[Heard { maxt: 0, ..late }]), 0, 0), Err(33));
        // The moment that is asked about counts, and not when it was received.
        let last = u64::from(u32::MAX);
        let far = Heard { maxt: last, ..heard(last, last, 0, 0) };
        assert_eq!(clock(&[far]).now(999_899, 0).map(|time| time.counted), Ok(1));
        assert_eq!(clock(&[far]).now(999_900, 0), Err(Refusal::TooFew));
    }

    #[test]
    fn each_refusal_and_which_comes_first() {
        assert_eq!(Clock::start(999_999).map(|clock| clock.kept), Ok(Default::default()));
        assert_eq!(Clock::start(1_000_000), Err(Refusal::ClockInput));
        let mut clock = clock(&[heard(1000, 1006, 5, 7)]);
        let before = clock;
        let mut code = |server, sent, received| {
            let answer = clock.take(server, heard(1, 2, sent, received));
            assert!(answer.is_ok() || clock == before);
            answer.map_or_else(Refusal::code, |()| 0)
        };
        assert_eq!(code(8, 9, 8), 32);
        assert_eq!(code(1 << 32, 9, 9), 32);
        assert_eq!(code(7, 9, 8), 26);
        assert_eq!(code(0, 5, 6), 26);
        assert_eq!(code(7, 5, 6), 0);
        // One that is sent for before the last was received is as good as any.
        assert_eq!(code(0, 5, 7), 0);
        assert_eq!(clock.now(7 * SECOND - 1, 9), Err(Refusal::Clock));
        assert_eq!(clock.now(7 * SECOND, 9), Err(Refusal::TooFew));
        // A moment before something that is kept, though nothing can be used of it.
        clock.kept[3][1].received = 8 * SECOND;
        assert_eq!(clock.now(7 * SECOND, 9), Err(Refusal::Clock));
    }

    #[test]
    fn ends_stop_at_the_last_number() {
        let last = u64::MAX / SECOND;
        let said = |low, high| Heard { low, high, maxt: u64::MAX, sent: 0, received: 0 };
        let time = |low, high, moment| clock(&[said(low, high)]).now(moment, 0).unwrap();
        let just = u64::MAX - last * SECOND;
        let near = time(last, last, just - 57);
        assert_eq!((near.low, near.high, near.stopped), (u64::MAX - 113, u64::MAX - 1, false));
        let near = time(last, last, just - 56);
        assert_eq!((near.low, near.high, near.stopped), (u64::MAX - 112, u64::MAX, true));
        let past = time(last + 1, u64::MAX, u64::MAX);
        assert_eq!((past.low, past.high, past.stopped), (u64::MAX, u64::MAX, true));
        let all = time(0, u64::MAX, 0);
        assert_eq!((all.low, all.high, all.stopped), (0, u64::MAX, true));
    }

    /// Marzullo's answer, with every point tried.
    #[test]
    fn no_point_is_missed() {
        let mut dice = Dice::new(0x5eed_3601);
        for _ in 0..20_000 {
            let mut span = |server| {
                let [from, to] = [0; 2].map(|_| dice.below(12).into());
                (server, Span { from, to })
            };
            let counted: Vec<(usize, Span)> = (0..6).map(&mut span).collect();
            for enough in 1..=6 {
                let lies = |point: &u128| {
                    counted.iter().filter(|(_, span)| span.holds(*point)).count() >= enough as usize
                };
                let points: Vec<u128> = (0..12).filter(lies).collect();
                let due = points.first().zip(points.last());
                let due = due.map(|(from, to)| Span { from: *from, to: *to });
                assert_eq!(enough_of(&counted, enough), due, "{counted:?}");
            }
        }
    }
}
