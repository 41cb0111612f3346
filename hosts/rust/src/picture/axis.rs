//! The time axis: where a second stands on it, and which seconds are named below it.
//!
//! Windows are some seconds wide and may lie years apart. So the axis is broken where nothing was
//! said for long: it consists of pieces of one scale, with the gaps between them left out.

use super::steps::Step;

/// The windows take at least one part in so many of the pieces.
const SPARSEST: u128 = 16;

/// An axis, whose places are whole numbers from 0 to its width.
pub(super) struct Axis {
    pub pieces: Vec<Piece>,
}

/// A piece of the axis, without a break.
#[derive(Clone, Copy, Debug, PartialEq, Eq)]
pub(super) struct Piece {
    /// Its first second, and its last one.
    pub first: u64,
    pub last: u64,
    /// Where it starts and ends on the axis.
    pub start: u64,
    pub end: u64,
}

/// A second that is named below the axis.
#[derive(Clone, Copy, Debug, PartialEq, Eq)]
pub(super) struct Tick {
    pub second: u64,
    pub at: u64,
    /// How many seconds from one such second to the next, at the least.
    pub step: u64,
}

/// A part of time, from its first second to its last.
type Part = (u64, u64);

fn length((first, last): Part) -> u128 {
    u128::from(last - first)
}

impl Axis {
    /// The axis for these windows, of a width, with breaks of another width. None, where there is
    /// no window.
    pub fn of(windows: &[Part], width: u64, break_width: u64) -> Option<Axis> {
        let parts = broken(merged(windows));
        let breaks = parts.len().checked_sub(1)? as u64;
        let room = width.saturating_sub(breaks * break_width);
        let all = parts.iter().copied().map(length).sum::<u128>().max(1);
        let (mut pieces, mut before) = (Vec::new(), 0);
        for (index, part) in parts.into_iter().enumerate() {
            let start = scaled(before, all, room) + index as u64 * break_width;
            before += length(part);
            let end = scaled(before, all, room) + index as u64 * break_width;
            pieces.push(Piece { first: part.0, last: part.1, start, end });
        }
        Some(Axis { pieces })
    }

    /// Where a second stands. One that no piece has is put at the end of the piece before it.
    pub fn place(&self, second: u64) -> u64 {
        let holds = |piece: &&Piece| piece.first <= second;
        let piece = self.pieces.iter().rev().find(holds).unwrap_or(&self.pieces[0]);
        let past = u128::from(second.clamp(piece.first, piece.last) - piece.first);
        let whole = u128::from(piece.last - piece.first).max(1);
        piece.start + scaled(past, whole, piece.end - piece.start)
    }

    /// Seconds that are named below the axis, so that no two names of this width meet.
    pub fn ticks(&self, name_width: u64) -> Vec<Tick> {
        let mut ticks: Vec<Tick> = Vec::new();
        for piece in &self.pieces {
            for tick in piece.ticks(name_width) {
                if ticks.last().map_or(true, |last| tick.at >= last.at + name_width) {
                    ticks.push(tick);
                }
            }
        }
        ticks
    }
}

impl Piece {
    /// The round seconds of a piece that are as far apart as a name is wide; or its first second,
    /// where it has no round one.
    fn ticks(&self, name_width: u64) -> Vec<Tick> {
        let (seconds, places) = (self.last - self.first, (self.end - self.start).max(1));
        let least = u128::from(seconds) * u128::from(name_width) / u128::from(places) + 1;
        let step = Step::of(least);
        let mut ticks = Vec::new();
        let mut next = step.round_from(self.first);
        while let Some(second) = next.filter(|second| *second <= self.last) {
            let past = scaled(u128::from(second - self.first), seconds.max(1).into(), places);
            ticks.push(Tick { second, at: self.start + past, step: step.seconds() });
            next = second.checked_add(1).and_then(|second| step.round_from(second));
        }
        if ticks.is_empty() {
            ticks.push(Tick { second: self.first, at: self.start, step: 1 });
        }
        ticks
    }
}

/// So much of `room` as `part` is of `whole`. It is at most `room`, which is a u64.
fn scaled(part: u128, whole: u128, room: u64) -> u64 {
    // A part has at most 68 bits, since there are at most 16 windows, and no room more than 32.
    (part * u128::from(room) / whole) as u64
}

/// The parts of time that some window covers, in order.
fn merged(windows: &[Part]) -> Vec<Part> {
    let mut windows = windows.to_vec();
    windows.sort_unstable();
    let mut parts: Vec<Part> = Vec::new();
    for (first, last) in windows {
        match parts.last_mut() {
            Some(part) if first <= part.1 => part.1 = part.1.max(last),
            _ => parts.push((first, last)),
        }
    }
    parts
}

/// Joins parts across the gaps between them, but for the widest gaps, where the parts would be
/// sparse on an axis with them.
fn broken(parts: Vec<Part>) -> Vec<Part> {
    let covered: u128 = parts.iter().copied().map(length).sum();
    let mut gaps: Vec<u128> = parts.windows(2).map(|two| length((two[0].1, two[1].0))).collect();
    gaps.sort_unstable();
    let mut kept = covered + gaps.iter().sum::<u128>();
    let mut widest = u128::MAX;
    while let Some(gap) = gaps.pop().filter(|_| kept > SPARSEST * covered.max(1)) {
        kept -= gap;
        widest = gap;
    }
    let mut joined: Vec<Part> = Vec::new();
    for part in parts {
        match joined.last_mut() {
            Some(before) if length((before.1, part.0)) < widest => before.1 = part.1,
            _ => joined.push(part),
        }
    }
    joined
}

#[cfg(test)]
mod tests {
    use super::{Axis, Part};

    fn axis(windows: &[Part]) -> Axis {
        Axis::of(windows, 70_000, 4_000).expect("there is a window")
    }

    #[test]
    fn near_windows_are_on_one_piece() {
        let axis = axis(&[(990, 1010), (1490, 1510), (1494, 1496), (1390, 1410)]);
        assert_eq!(axis.pieces.len(), 1);
        assert_eq!([axis.place(990), axis.place(1250), axis.place(1510)], [0, 35_000, 70_000]);
    }

    #[test]
    fn a_wide_gap_is_left_out() {
        let axis = axis(&[(86_400, 86_406), (0, 6), (3, 9)]);
        assert_eq!(axis.pieces.len(), 2);
        assert_eq!([axis.place(0), axis.place(9)], [0, 39_600]);
        assert_eq!([axis.place(86_400), axis.place(86_406)], [43_600, 70_000]);
        assert_eq!(axis.place(40_000), 39_600);
    }

    #[test]
    fn the_ends_of_time_have_a_place() {
        for windows in [&[(0, u64::MAX)][..], &[(0, 1), (u64::MAX - 1, u64::MAX)], &[(5, 5)]] {
            let axis = axis(windows);
            for (first, last) in windows {
                assert!(axis.place(*first) <= axis.place(*last));
                assert!(axis.place(*last) <= 70_000);
            }
            let ticks = axis.ticks(8_000);
            assert!(!ticks.is_empty() && ticks.len() < 10);
            assert!(ticks.windows(2).all(|two| two[0].at + 8_000 <= two[1].at));
        }
    }

    #[test]
    fn no_window_has_no_axis() {
        assert!(Axis::of(&[], 70_000, 4_000).is_none());
    }

    #[test]
    fn ticks_are_round() {
        let ticks = axis(&[(1_000_003, 1_000_063)]).ticks(8_000);
        let seconds: Vec<u64> = ticks.iter().map(|tick| tick.second).collect();
        assert_eq!(seconds, (1..=6).map(|ten| 1_000_000 + 10 * ten).collect::<Vec<u64>>());
        assert!(ticks.iter().all(|tick| tick.step == 10));
    }
}
