//! Trials of the limits: paper 01, "Limits".

use crate::plain;
use crate::random::Random;
use cenduxari::Refusal;

/// What is asked: days, kind, capacity, asset, period.
pub type Asked = [u64; 5];

/// A version of the limits, with three words to write; gives the paper's number.
pub type Limits = fn(Asked, &mut [u64; 3]) -> u64;

/// The limits by the safe crate.
pub fn safe([days, kind, capacity, asset, period]: Asked, out: &mut [u64; 3]) -> u64 {
    written(cenduxari::limits(days, kind, capacity, asset, period), out)
}

/// The limits in plain Rust.
pub fn plain([days, kind, capacity, asset, period]: Asked, out: &mut [u64; 3]) -> u64 {
    written(plain::limits(days, kind, capacity, asset, period), out)
}

/// The paper's number of an outcome, with the three limits, or zeros, written.
fn written(outcome: Result<cenduxari::Limits, Refusal>, out: &mut [u64; 3]) -> u64 {
    match outcome {
        Ok(limits) => {
            *out = [limits.hour, limits.term, limits.volume];
            0
        }
        Err(refusal) => {
            *out = [0; 3];
            refusal.number()
        }
    }
}

/// Three words to write, with guard words around them.
#[derive(Clone, Copy, PartialEq)]
#[repr(C)]
struct Guarded {
    before: [u64; 2],
    out: [u64; 3],
    after: [u64; 2],
}

/// Asks once, and gives the number, or the fault that was found.
pub fn trial(limits: Limits, asked: Asked, random: &mut Random) -> Result<u64, &'static str> {
    let mut word = || random.word();
    let kept = Guarded {
        before: [word(), word()],
        out: [word(), word(), word()],
        after: [word(), word()],
    };
    let mut memory = kept;
    let number = limits(asked, &mut memory.out);
    let [days, kind, capacity, asset, period] = asked;
    let (expected_number, expected) =
        match second::limits::limits(days, kind, capacity, asset, period) {
            Ok(values) => (0, values),
            Err(refusal) => (refusal, [0; 3]),
        };
    if number != expected_number {
        return Err("another number than the second engine's");
    }
    if memory.out != expected {
        return Err("other limits than the second engine's");
    }
    if (memory.before, memory.after) != (kept.before, kept.after) {
        return Err("memory outside the three limits changed");
    }
    Ok(number)
}

/// The ends of each range, what lies next to them, and what would be in range in 32 bits.
pub const DAYS: [u64; 10] = [0, 1, 2, 15, 30, 31, 32, WIDE + 1, WIDE * 31, u64::MAX];
/// The same of the kinds.
pub const KINDS: [u64; 8] = [0, 1, 2, 3, 4, 5, WIDE + 1, u64::MAX];
/// The same of capacities, with those that six fifths round.
pub const CAPACITIES: [u64; 11] =
    [0, 1, 2, 3, 4, 100, 4_999_999, 5_000_000, 5_000_001, WIDE + 1, u64::MAX];
/// The same of asset energies, with some just next to a term limit.
#[rustfmt::skip]
pub const ASSETS: [u64; 13] = [
    0, 1, 23, 24, 25, 2_399, 2_400, 2_401, 3_720_000_000, 4_000_000_000, 4_000_000_001, WIDE, u64::MAX,
];
/// The same of periods: of hours 5, 6, 19, 20 and 23, and the last of each of those terms.
#[rustfmt::skip]
pub const PERIODS: [u64; 25] = [
    0, 5, 6, 19, 20, 23, 24, 25, 29, 30, 43, 44, 47, 48,
    359, 360, 719, 720, 737, 738, 743, 744, 745, WIDE + 6, u64::MAX,
];

/// A word past 32 bits.
const WIDE: u64 = 1 << 32;

/// A random question with each figure in its range, or the first period after the term.
pub fn question(random: &mut Random) -> Asked {
    let days = 1 + random.to(30);
    let capacity = 1 + random.to(4_999_999);
    let most_asset = if random.to(1) == 0 { 4_000_000_000 } else { 25 * capacity * days };
    [
        days,
        1 + random.to(3),
        capacity,
        random.to(most_asset.min(4_000_000_000)),
        random.to(24 * days),
    ]
}

/// The same with one figure of it any word.
pub fn odd_question(random: &mut Random) -> Asked {
    let mut asked = question(random);
    asked[random.to(4) as usize] = random.word() >> random.to(63);
    asked
}
