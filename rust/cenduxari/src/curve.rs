//! The delivery curve of a unit on a day.

use crate::lent::POINTS;

/// The 48 half hours of a unit's day.
///
/// The net n of an hour gives floor(n / 2), then the rest.
#[derive(Clone, Copy, Debug, PartialEq, Eq, Hash)]
pub struct Curve {
    /// The energy of each half hour, in kWh.
    pub points: [u64; POINTS],
}

impl Curve {
    /// The net of an hour of the day, from 0 to 23, in kWh.
    ///
    /// # Panics
    ///
    /// If there is no such hour.
    pub fn net(&self, hour: usize) -> u64 {
        self.points[2 * hour] + self.points[2 * hour + 1]
    }

    /// The energy of the day, in kWh.
    pub fn total(&self) -> u64 {
        self.points.iter().sum()
    }
}
