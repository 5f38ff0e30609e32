//! Times the proved sharing and limits, through the safe crate, beside the plain Rust versions on the same inputs.
//! Prints the median time of a call of each, over interleaved rounds, and the ratio of the two.

use cenduxari::{Limits, Refusal};
use std::time::Instant;
use trials::limits::{question, Asked};
use trials::plain;
use trials::random::Random;
use trials::sharing::{list, List, MOST};

/// Rounds that each version runs.
const ROUNDS: usize = 301;

fn main() {
    let mut random = Random(21);
    println!("{:<28}{:>12}{:>12}{:>8}", "median time of a call", "proved", "plain", "ratio");
    for (count, calls) in [(24, 1_000), (744, 40), (7_440, 4)] {
        let amounts = list(List::Most, count, &mut random);
        let to_share: Vec<u64> = (0..calls).map(|_| 1 + random.to(MOST - 1)).collect();
        let times = medians(
            calls,
            || shared(&to_share, &amounts, cenduxari::share),
            || shared(&to_share, &amounts, plain::share),
        );
        report(&format!("sharing over {count} amounts"), times);
    }
    let random_units: Vec<Asked> = (0..2_976).map(|_| question(&mut random)).collect();
    for (name, asked) in [
        ("limits, unit by unit", units_of_a_term(&mut random)),
        ("limits, random units", random_units),
    ] {
        let times = medians(
            asked.len(),
            || limited(&asked, cenduxari::limits),
            || limited(&asked, plain::limits),
        );
        report(name, times);
    }
}

/// A unit of each kind, in all periods of the longest term.
fn units_of_a_term(random: &mut Random) -> Vec<Asked> {
    let mut asked = Vec::new();
    for kind in 1..=4 {
        let capacity = 1 + random.to(4_999_999);
        let asset = random.to(MOST);
        asked.extend((0..744).map(|period| [31, kind, capacity, asset, period]));
    }
    asked
}

/// Shares each amount over the amounts, and sums a part of each.
fn shared(
    to_share: &[u64],
    amounts: &[u64],
    share: impl Fn(u64, &[u64], &mut [u64]) -> Result<(), Refusal>,
) -> u64 {
    let mut parts = vec![0; amounts.len()];
    let mut sum = 0;
    for (at, &amount) in to_share.iter().enumerate() {
        share(amount, amounts, &mut parts).expect("an amount up to the total");
        sum += parts[at % parts.len()];
    }
    sum
}

/// Asks for all limits, and sums them and the refusals.
fn limited(
    asked: &[Asked],
    limits: impl Fn(u64, u64, u64, u64, u64) -> Result<Limits, Refusal>,
) -> u64 {
    let mut sum = 0;
    for &[days, kind, capacity, asset, period] in asked {
        sum += match limits(days, kind, capacity, asset, period) {
            Ok(limits) => limits.hour + limits.term + limits.volume,
            Err(refusal) => refusal.number(),
        };
    }
    sum
}

/// The median time of a call of the proved and of the plain version, in nanoseconds. A round makes `calls` calls.
fn medians(calls: usize, proved: impl Fn() -> u64, plain: impl Fn() -> u64) -> [f64; 2] {
    let expected = plain();
    let time = |round: &dyn Fn() -> u64| {
        let start = Instant::now();
        assert_eq!(round(), expected, "the two versions differ");
        start.elapsed().as_nanos() as f64 / calls as f64
    };
    let mut times = [Vec::new(), Vec::new()];
    for round in 0..ROUNDS {
        // The two take turns in going first.
        if round % 2 == 0 {
            times[0].push(time(&proved));
            times[1].push(time(&plain));
        } else {
            times[1].push(time(&plain));
            times[0].push(time(&proved));
        }
    }
    times.map(|mut times| {
        times.sort_by(f64::total_cmp);
        times[ROUNDS / 2]
    })
}

fn report(name: &str, [proved, plain]: [f64; 2]) {
    println!("{name:<28}{proved:>9.1} ns{plain:>9.1} ns{:>8.2}", proved / plain);
}
