//! The hour, term and volume limit of a unit.
//! Paper: "Limits (001 11)", and the direct call at the end of "Sharing an amount".

use crate::sharing::MOST_ENERGY;

/// The longest term, in days.
pub const MOST_DAYS: u64 = 31;
/// The periods of the longest term.
pub const MOST_PERIODS: usize = 744;
/// The largest capacity, in kW.
pub const MOST_CAPACITY: u64 = 5_000_000;

/// Days in their range?
pub fn days_in_range(days: u64) -> bool {
    (1..=MOST_DAYS).contains(&days)
}

/// Kind 1 to 4?
pub fn kind_in_range(kind: u64) -> bool {
    (1..=4).contains(&kind)
}

/// Capacity and asset energy in their ranges? The asset is judged for every kind.
pub fn capacity_in_range(capacity: u64, asset: u64) -> bool {
    (1..=MOST_CAPACITY).contains(&capacity) && asset <= MOST_ENERGY
}

/// Kinds 1 and 2 are generators, 3 and 4 loads.
pub fn is_generator(kind: u64) -> bool {
    kind == 1 || kind == 2
}

/// The hour limit, by hour of day.
pub fn hour_limit(kind: u64, capacity: u64, hour: u64) -> u64 {
    match (kind, hour) {
        (1, 6..=19) => capacity,
        (1, _) => 0,
        _ => capacity,
    }
}

/// The term limit.
pub fn term_limit(days: u64, kind: u64, capacity: u64, asset: u64) -> u64 {
    match kind {
        1 => capacity * 10 * days,
        4 => asset.min(capacity * 24 * days),
        _ => capacity * 24 * days,
    }
}

/// The volume limit, from the term limit.
pub fn volume_limit(kind: u64, term: u64) -> u64 {
    if is_generator(kind) {
        term * 6 / 5
    } else {
        term
    }
}

/// The limits called directly: hour, term and volume limit, or 2, 3, 4 or 10.
pub fn limits(
    days: u64,
    kind: u64,
    capacity: u64,
    asset: u64,
    period: u64,
) -> Result<[u64; 3], u64> {
    if !days_in_range(days) {
        return Err(2);
    }
    if !kind_in_range(kind) {
        return Err(3);
    }
    if !capacity_in_range(capacity, asset) {
        return Err(4);
    }
    if period >= 24 * days {
        return Err(10);
    }
    let term = term_limit(days, kind, capacity, asset);
    Ok([hour_limit(kind, capacity, period % 24), term, volume_limit(kind, term)])
}
