//! Sharing and limits as a Rust programmer would write them, in u64, for the benchmark. A call is a call, as it is to
//! the proved functions.

use cenduxari::{Limits, Refusal};

const MOST_ENERGY: u64 = 4_000_000_000;

/// Shares an amount over the remaining amounts, into the first parts.
#[inline(never)]
pub fn share(amount: u64, amounts: &[u64], parts: &mut [u64]) -> Result<(), Refusal> {
    if parts.len() < amounts.len() {
        return Err(Refusal::RowsShort);
    }
    let mut total = 0;
    for &remaining in amounts {
        if remaining > MOST_ENERGY - total {
            return Err(Refusal::Energy);
        }
        total += remaining;
    }
    if amount == 0 || amount > total {
        return Err(Refusal::Energy);
    }
    let mut left = amount;
    let mut places = Vec::with_capacity(amounts.len());
    for (place, (&remaining, part)) in amounts.iter().zip(&mut *parts).enumerate() {
        let product = amount * remaining;
        *part = product / total;
        left -= *part;
        places.push((total - product % total, place));
    }
    if left > 0 {
        places.select_nth_unstable(left as usize - 1);
        for &(_, place) in &places[..left as usize] {
            parts[place] += 1;
        }
    }
    Ok(())
}

/// The limits of a unit in a period.
#[inline(never)]
pub fn limits(
    days: u64,
    kind: u64,
    capacity: u64,
    asset: u64,
    period: u64,
) -> Result<Limits, Refusal> {
    if !(1..=31).contains(&days) {
        return Err(Refusal::DaysOrPrices);
    }
    if !(1..=4).contains(&kind) {
        return Err(Refusal::Kind);
    }
    if !(1..=5_000_000).contains(&capacity) || asset > MOST_ENERGY {
        return Err(Refusal::CapacityOrAsset);
    }
    if period >= 24 * days {
        return Err(Refusal::Period);
    }
    let hour = if kind == 1 && !(6..20).contains(&(period % 24)) { 0 } else { capacity };
    let term = match kind {
        1 => capacity * 10 * days,
        4 => asset.min(capacity * 24 * days),
        _ => capacity * 24 * days,
    };
    let volume = if kind <= 2 { term * 6 / 5 } else { term };
    Ok(Limits { hour, term, volume })
}
