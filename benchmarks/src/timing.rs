//! The best time of each side, taken in turns.

use crate::clock;
use crate::sides::{Side, Work};
use std::time::Duration;

/// How long and how often is timed.
#[derive(Clone, Copy)]
pub struct Pace {
    /// How long one turn of one side is to take: long beside the clock's own cost, short beside a
    /// scheduler's slice, so that some turn is likely to run undisturbed.
    turn: Duration,
    /// How much time a side has for all its turns.
    side: Duration,
    /// The fewest turns, where one call takes longer than a turn should.
    fewest: u32,
}

impl Pace {
    /// That of a run which counts.
    pub const FULL: Pace =
        Pace { turn: Duration::from_millis(4), side: Duration::from_millis(300), fewest: 8 };

    /// That of a first look, for what is sought among many.
    pub const GLANCE: Pace =
        Pace { turn: Duration::from_millis(1), side: Duration::from_millis(10), fewest: 3 };

    /// That of a run which only shows that all of it works.
    pub const QUICK: Pace =
        Pace { turn: Duration::from_millis(1), side: Duration::from_millis(4), fewest: 1 };

    /// How long something is watched that cannot be called again and again.
    pub fn span(self) -> Duration {
        5 * self.side
    }

    /// How many turns of this length a side has.
    fn turns(self, turn: Duration) -> u32 {
        let turns = self.side.as_secs_f64() / turn.as_secs_f64().max(1e-9);
        (turns as u32).max(self.fewest)
    }

    /// The best time of one call on each side, in seconds.
    ///
    /// Each side has a number of calls of its own that fill a turn. Each round gives every side one
    /// turn, and each round starts with another side, so that none always runs behind the same one.
    pub fn best_times(self, works: &mut [(Side, Work)]) -> Vec<(Side, f64)> {
        let filled: Vec<(u32, Duration)> =
            works.iter_mut().map(|(_, work)| self.calls_for_a_turn(work)).collect();
        let longest = filled.iter().map(|(_, turn)| *turn).max().unwrap_or(self.turn);
        let mut best = vec![Duration::MAX; works.len()];
        for round in 0..self.turns(longest) as usize {
            for step in 0..works.len() {
                let at = (round + step) % works.len();
                best[at] = best[at].min(time(&mut works[at].1, filled[at].0));
            }
        }
        let each = works.iter().zip(filled).zip(best);
        each.map(|(((side, _), (calls, _)), best)| (*side, best.as_secs_f64() / f64::from(calls)))
            .collect()
    }

    /// How many calls of `work` fill a turn, and how long they took. The count is doubled until
    /// they do, which warms the caches up as well.
    fn calls_for_a_turn(self, work: &mut Work) -> (u32, Duration) {
        let mut calls = 1;
        loop {
            let taken = time(work, calls);
            if taken >= self.turn {
                return (calls, taken);
            }
            calls *= 2;
        }
    }
}

fn time(work: &mut Work, calls: u32) -> Duration {
    let start = clock::now();
    for _ in 0..calls {
        work();
    }
    clock::now().saturating_sub(start)
}
