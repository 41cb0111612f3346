//! What came of timing a subject.

use crate::sides::{Bound, Side};
use crate::table::or_none;

/// The times of a subject.
pub struct Measured {
    pub name: String,
    pub length: usize,
    times: Vec<(Side, f64)>,
}

impl Measured {
    pub fn new(name: String, length: usize, times: Vec<(Side, f64)>) -> Self {
        Measured { name, length, times }
    }

    /// The seconds of one call.
    pub fn time(&self, side: Side) -> Option<f64> {
        self.times.iter().find(|(timed, _)| *timed == side).map(|(_, time)| *time)
    }

    pub fn ours(&self) -> f64 {
        self.time(Side::Ours).expect("every subject has our side")
    }

    /// Our time by another side's.
    pub fn ratio(&self, side: Side) -> Option<f64> {
        self.time(side).map(|time| self.ours() / time)
    }

    /// The same as it is shown: with three digits that mean something.
    pub fn ratio_text(&self, side: Side) -> String {
        or_none(self.ratio(side).map(|ratio| match ratio {
            _ if ratio < 10.0 => format!("{ratio:.3}"),
            _ => format!("{ratio:.1}"),
        }))
    }

    /// The ratio that a bound is about.
    pub fn bounded(&self, bound: &Bound) -> Option<f64> {
        self.time(bound.side).map(|time| (self.ours() - bound.free).max(0.0) / time)
    }

    pub fn is_above(&self, bound: &Bound) -> bool {
        self.bounded(bound).map_or(false, |ratio| ratio > bound.highest)
    }

    /// Takes over what is better in another measurement of the same sides.
    pub fn better(&mut self, times: Vec<(Side, f64)>) {
        for ((_, time), (_, other)) in self.times.iter_mut().zip(times) {
            *time = time.min(other);
        }
    }
}
