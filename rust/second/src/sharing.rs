//! Sharing an amount over remaining amounts, the odd kWh to the largest remainders.
//! Papers: 01, "Sharing an amount"; 02, job 14.

use std::cmp::Reverse;

/// The largest energy that a quantity, a total or a shared list may have, in kWh.
pub const MOST_ENERGY: u64 = 4_000_000_000;

/// Shares `d` over `amounts` into the first parts. Gives 0; 7 if fewer parts than amounts are lent;
/// 9 if d is 0 or over the total, or the total is over 4,000,000,000. Refused: no part is changed.
pub fn share(d: u64, amounts: &[u64], parts: &mut [u64]) -> u64 {
    if parts.len() < amounts.len() {
        return 7;
    }
    let total: u128 = amounts.iter().map(|&amount| amount as u128).sum();
    if d == 0 || d as u128 > total || total > MOST_ENERGY as u128 {
        return 9;
    }
    // d and each amount are at most 4,000,000,000: their product is below 2^64.
    let total = total as u64;
    let mut left = d;
    // The places with their fractions in total-ths of a kWh.
    let mut places = Vec::with_capacity(amounts.len());
    for (place, (&amount, part)) in amounts.iter().zip(&mut *parts).enumerate() {
        *part = d * amount / total;
        left -= *part;
        places.push((Reverse(d * amount % total), place));
    }
    // The kWh left over, one each: to the largest fractions, equal fractions by lowest place.
    if left > 0 {
        let (first, last, _) = places.select_nth_unstable(left as usize - 1);
        for &(_, place) in first.iter().chain([&*last]) {
            parts[place] += 1;
        }
    }
    0
}
