//! Sharing on many inputs: the exported function, the safe crate and the benchmark's plain version.

use trials::exported;
use trials::random::Random;
use trials::sharing::{amounts_to_share, list, plain, safe, trial, Share, LISTS, MOST};

/// What a series of trials came to.
#[derive(Debug, Default)]
struct Tally {
    accepted: u64,
    short: u64,
    energy: u64,
}

impl Tally {
    fn count(&mut self, number: u64) {
        match number {
            0 => self.accepted += 1,
            7 => self.short += 1,
            9 => self.energy += 1,
            _ => panic!("number {number}"),
        }
    }

    fn inputs(&self) -> u64 {
        self.accepted + self.short + self.energy
    }
}

/// Tries each version on the input; all must pass.
fn pass(amount: u64, amounts: &[u64], lent: usize, random: &mut Random, tally: &mut Tally) {
    for (name, share) in [("exported", exported::share as Share), ("safe", safe), ("plain", plain)]
    {
        match trial(share, amount, amounts, lent, random) {
            Ok(number) if name == "exported" => tally.count(number),
            Ok(_) => {}
            Err(fault) => {
                panic!("{name}: {fault}: share {amount} over {amounts:?}, {lent} parts lent")
            }
        }
    }
}

/// All lists of up to five amounts of up to 4, each amount up to one past the total, with each number of parts.
#[test]
fn every_small_input() {
    let mut random = Random(1);
    let mut tally = Tally::default();
    for count in 0..=5 {
        for code in 0..5_u64.pow(count) {
            let amounts: Vec<u64> = (0..count).map(|place| code / 5_u64.pow(place) % 5).collect();
            for amount in 0..=amounts.iter().sum::<u64>() + 1 {
                for lent in [count as usize, count as usize + 1] {
                    pass(amount, &amounts, lent, &mut random, &mut tally);
                }
            }
            for lent in 0..count as usize {
                pass(1, &amounts, lent, &mut random, &mut tally);
            }
        }
    }
    println!("every small input: {} inputs, {tally:?}", tally.inputs());
    assert!(tally.inputs() > 100_000);
}

/// Short lists of all kinds.
#[test]
fn short_lists() {
    let mut random = Random(2);
    let mut tally = Tally::default();
    for _ in 0..3_000 {
        for kind in LISTS {
            let count = random.to(12) as usize;
            let amounts = list(kind, count, &mut random);
            for amount in amounts_to_share(&amounts, &mut random) {
                for lent in
                    [count, count + 1 + random.to(4) as usize, random.to(count as u64) as usize]
                {
                    pass(amount, &amounts, lent, &mut random, &mut tally);
                }
            }
        }
    }
    println!("short lists: {} inputs, {tally:?}", tally.inputs());
    assert!(tally.accepted > 200_000 && tally.short > 200_000 && tally.energy > 200_000);
}

/// Lists of a day, of the longest term, and to several thousand.
#[test]
fn long_lists() {
    let mut random = Random(3);
    let mut tally = Tally::default();
    for round in 0..120 {
        for kind in LISTS {
            let any = 100 + random.to(4_900) as usize;
            for count in [24, 743, 744, 745, any] {
                if count == any && round % 4 != 0 {
                    continue;
                }
                let amounts = list(kind, count, &mut random);
                for amount in amounts_to_share(&amounts, &mut random) {
                    let lent = random.of(&[count, count, count + 1, count + 9, count - 1]);
                    pass(amount, &amounts, lent, &mut random, &mut tally);
                }
            }
        }
    }
    println!("long lists: {} inputs, {tally:?}", tally.inputs());
    assert!(tally.accepted > 10_000 && tally.short > 10_000 && tally.energy > 10_000);
}

/// Empty slices that point to no memory at all.
#[test]
fn empty_slices() {
    for share in [exported::share as Share, safe, plain] {
        for amount in [0, 1, MOST, u64::MAX] {
            assert_eq!(share(amount, &[], &mut []), 9);
            assert_eq!(share(amount, &Vec::new(), &mut Vec::new()), 9);
            assert_eq!(share(amount, &[0], &mut []), 7);
            let mut parts = [5; 2];
            assert_eq!(share(amount, &[], &mut parts), 9);
            assert_eq!(parts, [5; 2]);
        }
    }
}

/// Figure 1 as paper 02 has it.
#[test]
fn figure_1() {
    for share in [exported::share as Share, safe, plain] {
        let mut parts = [9; 4];
        assert_eq!((share(4, &[3, 3, 3], &mut parts), parts), (0, [2, 1, 1, 9]));
        assert_eq!((share(2, &[1, 2, 2], &mut parts), parts), (0, [0, 1, 1, 9]));
    }
}

/// The total, or the largest word where it doesn't fit one.
fn total(amounts: &[u64]) -> u64 {
    amounts.iter().fold(0, |sum: u64, &remaining| sum.saturating_add(remaining))
}

/// The total as it wraps in a word.
fn wrapped_total(amounts: &[u64]) -> u64 {
    amounts.iter().fold(0, |sum: u64, &remaining| sum.wrapping_add(remaining))
}

/// Shares with the odd kWh one each to the places that come last by a key of fraction, remaining amount and place.
fn odd_kwh(
    amount: u64,
    amounts: &[u64],
    parts: &mut [u64],
    key: fn(u64, u64, usize) -> (u64, usize),
) -> u64 {
    let number = plain(amount, amounts, parts);
    if number == 0 {
        let whole = total(amounts);
        let mut left = amount;
        for (part, &remaining) in parts.iter_mut().zip(amounts) {
            *part = amount * remaining / whole;
            left -= *part;
        }
        let mut places: Vec<usize> = (0..amounts.len()).collect();
        places.sort_by_key(|&place| key(amount * amounts[place] % whole, amounts[place], place));
        for &place in places.iter().rev().take(left as usize) {
            parts[place] += 1;
        }
    }
    number
}

/// Versions with one fault each: the same inputs must find it.
const WRONG: [(&str, Share); 14] = [
    ("energy before parts", |amount, amounts, parts| match plain(amount, amounts, parts) {
        7 if amount == 0 => 9,
        number => number,
    }),
    ("all of it refused", |amount, amounts, parts| match plain(amount, amounts, parts) {
        0 if amount == total(amounts) => 9,
        number => number,
    }),
    ("the largest total refused", |amount, amounts, parts| match plain(amount, amounts, parts) {
        0 if total(amounts) == MOST => 9,
        number => number,
    }),
    ("one more than the largest total", |amount, amounts, parts| {
        match plain(amount, amounts, parts) {
            9 if 0 < amount && amount <= MOST + 1 && total(amounts) == MOST + 1 => 0,
            number => number,
        }
    }),
    ("a total that wraps", |amount, amounts, parts| match plain(amount, amounts, parts) {
        9 if 0 < amount && (amount..=MOST).contains(&wrapped_total(amounts)) => 0,
        number => number,
    }),
    ("a refusal that writes", |amount, amounts, parts| {
        let number = plain(amount, amounts, parts);
        if number != 0 {
            parts.fill(0);
        }
        number
    }),
    ("parts past the amounts cleared", |amount, amounts, parts| {
        let number = plain(amount, amounts, parts);
        if number == 0 {
            parts[amounts.len()..].fill(0);
        }
        number
    }),
    ("earlier parts first", |amount, amounts, parts| {
        let number = plain(amount, amounts, parts);
        if number == 0 {
            let mut left = amount;
            for (part, &remaining) in parts.iter_mut().zip(amounts) {
                *part = left.min(remaining);
                left -= *part;
            }
        }
        number
    }),
    ("by running sums", |amount, amounts, parts| {
        let number = plain(amount, amounts, parts);
        if number == 0 {
            let (mut sum, mut given) = (0, 0);
            for (part, &remaining) in parts.iter_mut().zip(amounts) {
                sum += remaining;
                let due = amount * sum / total(amounts);
                *part = due - given;
                given = due;
            }
        }
        number
    }),
    ("equal fractions by highest place", |amount, amounts, parts| {
        odd_kwh(amount, amounts, parts, |fraction, _, place| (fraction, place))
    }),
    ("the odd kWh to the largest amounts", |amount, amounts, parts| {
        odd_kwh(amount, amounts, parts, |_, remaining, place| (remaining, usize::MAX - place))
    }),
    ("two odd kWh to one place", |amount, amounts, parts| {
        let number = plain(amount, amounts, parts);
        if number == 0 {
            let whole = total(amounts);
            let exact = |place: usize| amount * amounts[place] / whole;
            let odd: Vec<usize> =
                (0..amounts.len()).filter(|&place| parts[place] > exact(place)).collect();
            if let [first, .., last] = odd[..] {
                parts[first] += 1;
                parts[last] -= 1;
            }
        }
        number
    }),
    ("two parts swapped", |amount, amounts, parts| {
        let number = plain(amount, amounts, parts);
        if number == 0 && amounts.len() > 1 {
            parts.swap(0, 1);
        }
        number
    }),
    ("as many parts as amounts are too few", |amount, amounts, parts| {
        if parts.len() > amounts.len() {
            plain(amount, amounts, parts)
        } else {
            7
        }
    }),
];

#[test]
fn wrong_versions_are_found() {
    for (name, share) in WRONG {
        let mut random = Random(2);
        let mut found = 0;
        for _ in 0..100 {
            for kind in LISTS {
                let count = random.to(12) as usize;
                let amounts = list(kind, count, &mut random);
                for amount in amounts_to_share(&amounts, &mut random) {
                    for lent in [count, count + 1, random.to(count as u64) as usize] {
                        found +=
                            u64::from(trial(share, amount, &amounts, lent, &mut random).is_err());
                    }
                }
            }
        }
        println!("{name}: found {found} times");
        assert!(found > 0, "{name} was not found");
    }
}

/// A version that writes past the parts it was lent: the guard words tell.
#[test]
fn a_word_past_the_parts_is_found() {
    let past: Share = |amount, amounts, parts| {
        let number = plain(amount, amounts, parts);
        // SAFETY: a guard word of the trial follows the parts.
        unsafe { *parts.as_mut_ptr().add(parts.len()) = 0 };
        number
    };
    assert_eq!(
        trial(past, 4, &[3, 3, 3], 3, &mut Random(4)),
        Err("memory outside the parts changed")
    );
}
