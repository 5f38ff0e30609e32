//! The limits on many inputs: the exported function, the safe crate and the benchmark's plain version.

use std::collections::BTreeMap;
use trials::exported;
use trials::limits::{
    odd_question, plain, question, safe, trial, Asked, Limits, ASSETS, CAPACITIES, DAYS, KINDS,
    PERIODS,
};
use trials::random::Random;

/// How often each number was given.
type Tally = BTreeMap<u64, u64>;

/// Tries each version on the input; all must pass.
fn pass(asked: Asked, random: &mut Random, tally: &mut Tally) {
    for (name, limits) in
        [("exported", exported::limits as Limits), ("safe", safe), ("plain", plain)]
    {
        match trial(limits, asked, random) {
            Ok(number) if name == "exported" => *tally.entry(number).or_default() += 1,
            Ok(_) => {}
            Err(fault) => panic!("{name}: {fault}: {asked:?}"),
        }
    }
}

/// Prints the tally; each number must have been given often.
fn each_given(name: &str, tally: &Tally, least: u64) {
    println!("{name}: {} inputs, {tally:?}", tally.values().sum::<u64>());
    assert_eq!(tally.keys().copied().collect::<Vec<u64>>(), [0, 2, 3, 4, 10]);
    assert!(tally.values().all(|&count| count >= least), "{tally:?}");
}

/// All boundary values, crossed with each other.
fn boundaries(mut ask: impl FnMut(Asked)) {
    for days in DAYS {
        for kind in KINDS {
            for capacity in CAPACITIES {
                for asset in ASSETS {
                    for period in PERIODS {
                        ask([days, kind, capacity, asset, period]);
                    }
                }
            }
        }
    }
}

#[test]
fn every_boundary() {
    let mut random = Random(11);
    let mut tally = Tally::new();
    boundaries(|asked| pass(asked, &mut random, &mut tally));
    each_given("every boundary", &tally, 10_000);
}

/// Every term, kind and period, with some capacities and assets.
#[test]
fn every_period() {
    let mut random = Random(12);
    let mut tally = Tally::new();
    for days in 0..=32 {
        for kind in 0..=5 {
            for period in 0..=24 * days {
                for capacity in [0, 1, 1 + random.to(4_999_999)] {
                    let asset = random.to(25 * capacity * days);
                    pass([days, kind, capacity, asset, period], &mut random, &mut tally);
                }
            }
        }
    }
    each_given("every period", &tally, 200);
}

#[test]
fn random_questions() {
    let mut random = Random(13);
    let mut tally = Tally::new();
    for _ in 0..200_000 {
        for asked in [question(&mut random), odd_question(&mut random)] {
            pass(asked, &mut random, &mut tally);
        }
    }
    each_given("random questions", &tally, 2_000);
}

/// Words at random, of which nearly all are out of range.
#[test]
fn random_words() {
    let mut random = Random(14);
    let mut tally = Tally::new();
    for _ in 0..200_000 {
        let asked = [(); 5].map(|()| random.word());
        pass(asked, &mut random, &mut tally);
    }
    assert_eq!(tally.values().sum::<u64>(), 200_000);
}

/// The paper's figures 5 and 6, and the largest limits.
#[test]
fn figures_5_and_6() {
    for limits in [exported::limits as Limits, safe, plain] {
        let mut out = [7; 3];
        assert_eq!((limits([1, 2, 100, 0, 0], &mut out), out), (0, [100, 2_400, 2_880]));
        for (period, hour) in [(5, 0), (6, 100), (19, 100), (20, 0)] {
            assert_eq!((limits([1, 1, 100, 0, period], &mut out), out), (0, [hour, 1_000, 1_200]));
        }
        let most = [5_000_000, 3_720_000_000, 4_464_000_000];
        assert_eq!((limits([31, 2, 5_000_000, 0, 743], &mut out), out), (0, most));
        assert_eq!((limits([0, 0, 0, 0, 99], &mut out), out), (2, [0; 3]));
    }
}

/// Versions with one fault each: the boundaries must find it.
const WRONG: [(&str, Limits); 10] = [
    ("32 days", |[days, kind, capacity, asset, period], out| {
        let days = if days == 32 { 31 } else { days };
        plain([days, kind, capacity, asset, period], out)
    }),
    ("kind 5 is known", |[days, kind, capacity, asset, period], out| {
        let kind = if kind == 5 { 4 } else { kind };
        plain([days, kind, capacity, asset, period], out)
    }),
    ("capacity in 32 bits", |[days, kind, capacity, asset, period], out| {
        plain([days, kind, capacity & 0xffff_ffff, asset, period], out)
    }),
    ("asset judged for retailers alone", |[days, kind, capacity, asset, period], out| {
        let asset = if kind == 4 { asset } else { 0 };
        plain([days, kind, capacity, asset, period], out)
    }),
    ("asset of 0 is no limit", |[days, kind, capacity, asset, period], out| {
        let kind = if kind == 4 && asset == 0 { 3 } else { kind };
        plain([days, kind, capacity, asset, period], out)
    }),
    ("a period too many", |[days, kind, capacity, asset, period], out| {
        let period = if period == days.wrapping_mul(24) { 0 } else { period };
        plain([days, kind, capacity, asset, period], out)
    }),
    ("a solar generator in hour 20", |[days, kind, capacity, asset, period], out| {
        let period = if period % 24 == 20 { period - 1 } else { period };
        plain([days, kind, capacity, asset, period], out)
    }),
    ("period before capacity", |asked, out| match plain(asked, out) {
        4 if asked[4] >= 24 * asked[0] => 10,
        number => number,
    }),
    ("a fifth rounded first", |asked, out| {
        let number = plain(asked, out);
        if number == 0 && asked[1] <= 2 {
            out[2] = out[1] / 5 * 6;
        }
        number
    }),
    ("a refusal that writes no zeros", |asked, out| {
        let kept = *out;
        let number = plain(asked, out);
        if number != 0 {
            *out = kept;
        }
        number
    }),
];

#[test]
fn wrong_versions_are_found() {
    for (name, limits) in WRONG {
        let mut random = Random(11);
        let mut found = 0;
        boundaries(|asked| found += u64::from(trial(limits, asked, &mut random).is_err()));
        println!("{name}: found {found} times");
        assert!(found > 0, "{name} was not found");
    }
}
