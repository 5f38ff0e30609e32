//! Trials of sharing: paper 01, "Sharing an amount"; paper 02, job 14.

use crate::plain;
use crate::random::Random;
use cenduxari::Refusal;

/// A version of sharing: the amount, the remaining amounts, the parts; gives the paper's number.
pub type Share = fn(u64, &[u64], &mut [u64]) -> u64;

/// The largest total.
pub const MOST: u64 = 4_000_000_000;

/// Guard words before, between and after the amounts and the parts.
const GUARD: usize = 3;

/// Sharing by the safe crate.
pub fn safe(amount: u64, amounts: &[u64], parts: &mut [u64]) -> u64 {
    number(cenduxari::share(amount, amounts, parts))
}

/// Sharing in plain Rust.
pub fn plain(amount: u64, amounts: &[u64], parts: &mut [u64]) -> u64 {
    number(plain::share(amount, amounts, parts))
}

/// The paper's number of an outcome.
fn number(outcome: Result<(), Refusal>) -> u64 {
    outcome.map_or_else(Refusal::number, |()| 0)
}

/// Shares once in guarded memory with `lent` parts, and gives the number, or the fault that was found.
pub fn trial(
    share: Share,
    amount: u64,
    amounts: &[u64],
    lent: usize,
    random: &mut Random,
) -> Result<u64, &'static str> {
    let count = amounts.len();
    let split = GUARD + count + GUARD;
    let mut before: Vec<u64> = (0..split + lent + GUARD).map(|_| random.word()).collect();
    before[GUARD..GUARD + count].copy_from_slice(amounts);
    let shared = |share: Share| {
        let mut memory = before.clone();
        let (low, high) = memory.split_at_mut(split);
        let number = share(amount, &low[GUARD..GUARD + count], &mut high[..lent]);
        (number, memory)
    };
    let (number, after) = shared(share);
    let (expected_number, expected) = shared(second::sharing::share);
    if number != expected_number {
        return Err("another number than the second engine's");
    }
    if number != 0 && after != before {
        return Err("a refusal changed memory");
    }
    if after[..split] != before[..split] || after[split + lent..] != before[split + lent..] {
        return Err("memory outside the parts changed");
    }
    if number == 0 && after[split + count..] != before[split + count..] {
        return Err("a part past the amounts changed");
    }
    if after != expected {
        return Err("other parts than the second engine's");
    }
    if number == 0 {
        laws(amount, amounts, &after[split..split + count])?;
    }
    Ok(number)
}

/// The papers' laws of the parts, in arithmetic that can't overflow.
fn laws(amount: u64, amounts: &[u64], parts: &[u64]) -> Result<(), &'static str> {
    let wide = |words: &[u64]| words.iter().map(|&word| word as u128).sum::<u128>();
    if wide(parts) != amount as u128 {
        return Err("the parts don't sum to the amount");
    }
    if parts.iter().zip(amounts).any(|(part, remaining)| part > remaining) {
        return Err("a part exceeds its remaining amount");
    }
    let total = wide(amounts);
    // Each place with its fraction, and whether it got an odd kWh.
    let mut odd = Vec::with_capacity(parts.len());
    for (place, (&remaining, &part)) in amounts.iter().zip(parts).enumerate() {
        let exact = amount as u128 * remaining as u128;
        let times = part as u128 * total;
        if times + total <= exact || exact + total <= times {
            return Err("a part isn't within 1 kWh of the exact share");
        }
        odd.push((exact % total, place, part as u128 > exact / total));
    }
    odd.sort_by_key(|&(fraction, place, _)| (std::cmp::Reverse(fraction), place));
    if odd.windows(2).any(|pair| !pair[0].2 && pair[1].2) {
        return Err("an odd kWh isn't at the largest fractions, equal ones by lowest place");
    }
    Ok(())
}

/// Kinds of lists of remaining amounts.
#[derive(Clone, Copy, Debug)]
pub enum List {
    /// Each at most 10.
    Small,
    /// Mostly 0.
    Sparse,
    AllZero,
    Ones,
    /// One amount has it all.
    OneHasAll,
    /// The same amount at each place, so that all fractions are equal.
    Equal,
    /// Amounts of a day at each day.
    Daily,
    /// Each amount about half of the one before, so that fractions crowd.
    Halving,
    /// Amounts that differ by 1 at most, so that fractions lie close together.
    Near,
    /// A total up to the most.
    Even,
    /// A total of exactly the most.
    Most,
    /// A total of one more than the most.
    PastMost,
    /// Any words, so that most totals don't fit one.
    Words,
    /// Words that vanish where 32 bits are kept.
    Wide,
    /// A total that is small where it wraps in 64 bits.
    Wraps,
}

/// All kinds of lists.
pub const LISTS: [List; 15] = [
    List::Small,
    List::Sparse,
    List::AllZero,
    List::Ones,
    List::OneHasAll,
    List::Equal,
    List::Daily,
    List::Halving,
    List::Near,
    List::Even,
    List::Most,
    List::PastMost,
    List::Words,
    List::Wide,
    List::Wraps,
];

/// A list of `count` remaining amounts.
pub fn list(kind: List, count: usize, random: &mut Random) -> Vec<u64> {
    let even = MOST / count.max(1) as u64;
    let some = random.to(even.saturating_sub(1));
    let day: Vec<u64> = (0..24).map(|_| random.to(even)).collect();
    let mut amounts: Vec<u64> = (0..count)
        .map(|place| match kind {
            List::Small | List::Wraps => random.to(10),
            List::Sparse => random.of(&[0, 0, 0, 0, 0, 0, 999]),
            List::AllZero | List::OneHasAll => 0,
            List::Ones => 1,
            List::Equal => some,
            List::Daily => day[place % 24],
            List::Halving => (MOST / 2).checked_shr(place as u32).unwrap_or(0),
            List::Near => some + random.to(1),
            List::Even | List::Most | List::PastMost => random.to(even),
            List::Words => random.word(),
            List::Wide => random.of(&[0, 7, 1 << 32, 3 << 32]),
        })
        .collect();
    if count == 0 {
        return amounts;
    }
    let at = random.to(count as u64 - 1) as usize;
    let others = amounts
        .iter()
        .fold(0, |sum: u64, &amount| sum.wrapping_add(amount))
        .wrapping_sub(amounts[at]);
    match kind {
        List::OneHasAll => amounts[at] = random.of(&[1, 2, MOST, MOST + 1, u64::MAX]),
        List::Most => amounts[at] = MOST - others,
        List::PastMost => amounts[at] = MOST + 1 - others,
        // With one other amount or more the total is 2^64 and up to 10.
        List::Wraps => amounts[at] = random.to(10).wrapping_sub(others),
        _ => {}
    }
    amounts
}

/// Amounts to share over a list with this total: at its ends, past them, and within.
pub fn amounts_to_share(amounts: &[u64], random: &mut Random) -> Vec<u64> {
    let total: u128 = amounts.iter().map(|&amount| amount as u128).sum();
    let wrapped = total as u64;
    let capped = total.min(u64::MAX as u128) as u64;
    let mut all = vec![0, 1, 2, MOST, MOST + 1, u64::MAX, wrapped, wrapped & 0xffff_ffff];
    all.extend([
        capped / 2,
        capped.saturating_sub(1),
        capped.saturating_add(1),
        capped.saturating_mul(2),
    ]);
    all.extend([random.to(capped), random.to(capped), random.to(MOST), random.word()]);
    all.sort_unstable();
    all.dedup();
    all
}
