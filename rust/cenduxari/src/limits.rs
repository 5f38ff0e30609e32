//! The limits of a unit: paper 01, "Limits".

use crate::refusal::{outcome, Refusal};
use crate::sys;

/// The limits of a unit, in kWh.
#[derive(Clone, Copy, Debug, PartialEq, Eq, Hash)]
pub struct Limits {
    /// The hour limit in the period that was asked for.
    pub hour: u64,
    /// The term limit.
    pub term: u64,
    /// The volume limit.
    pub volume: u64,
}

/// The hour, term and volume limit of a unit in a period of a term.
///
/// The term has 1 to 31 `days`, and its periods run from 0 to 24 × `days` less 1. Kinds: 1 solar generator, 2 other
/// generator, 3 wholesale user, 4 retailer. `capacity` is 1 to 5,000,000 kW and `asset` 0 to 4,000,000,000 kWh; kinds 1
/// to 3 carry the asset energy unused.
///
/// # Errors
///
/// The first of these that is out of range:
/// - [`Refusal::DaysOrPrices`], the days;
/// - [`Refusal::Kind`];
/// - [`Refusal::CapacityOrAsset`];
/// - [`Refusal::Period`].
///
/// # Examples
///
/// ```
/// use cenduxari::{limits, Limits, Refusal};
///
/// // Another generator of 100 kW, one day.
/// assert_eq!(limits(1, 2, 100, 0, 0), Ok(Limits { hour: 100, term: 2_400, volume: 2_880 }));
/// // A solar generator before sunrise.
/// assert_eq!(limits(1, 1, 100, 0, 5), Ok(Limits { hour: 0, term: 1_000, volume: 1_200 }));
/// assert_eq!(limits(1, 2, 100, 0, 24), Err(Refusal::Period));
/// ```
#[inline]
pub fn limits(
    days: u64,
    kind: u64,
    capacity: u64,
    asset: u64,
    period: u64,
) -> Result<Limits, Refusal> {
    let mut out = [0; 3];
    // SAFETY: `out` is an array of three that this call alone holds. The function has no `requires`.
    outcome(unsafe { sys::cenduxari_limits(days, kind, capacity, asset, period, &mut out) })?;
    let [hour, term, volume] = out;
    Ok(Limits { hour, term, volume })
}
