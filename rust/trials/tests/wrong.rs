//! Engines with one fault each, made from the exported functions: lists and damaged books must find each.

use second::book::{Order, BUY, ROLLING, SELL};
use second::calls::{Call, Row};
use second::manners::{Manner, MANNERS};
use second::staff::judge;
use trials::clears::{nothing_more, run_clears};
use trials::deep::run_deep;
use trials::engine::{Engine, Told};
use trials::exported;
use trials::layout::{
    amount_at, held_at, order_at, unit_at, words, DAYS, EACH, GIVEN, LAYOUT, LAYOUT_NUMBER,
    LOWERED, MARK, ORDER_COUNT, PHASE, RAISED, UNIT_COUNT,
};
use trials::lists::{run_list, Counts, Plan};
use trials::random::Random;
use trials::takes::run_takes;

/// Manners by their places.
const TIGHT: &Manner = &MANNERS[0];
const DAY: &Manner = &MANNERS[1];
const ORDERS: &Manner = &MANNERS[6];

/// Whether a call was accepted or refused.
#[derive(PartialEq)]
enum If {
    Accepted,
    Refused,
}

/// Makes the call, then changes what was told, the book or the rows.
fn then(
    end: If,
    call: &Call,
    book: &mut [u64],
    rows: &mut [u64],
    change: impl FnOnce(&mut Told, &mut [u64], &mut [u64]),
) -> Told {
    let mut told = exported::make(call, book, rows);
    if (told.refusal == 0) == (end == If::Accepted) {
        change(&mut told, book, rows);
    }
    told
}

/// The call on the book with other words; after it they differ by as much as before it.
fn with(call: &Call, book: &mut [u64], rows: &mut [u64], other: &[(usize, u64)]) -> Told {
    let mut differences = Vec::new();
    for &(place, word) in other {
        differences.push((place, book[place].wrapping_sub(word)));
        book[place] = word;
    }
    let told = exported::make(call, book, rows);
    for (place, difference) in differences {
        book[place] = book[place].wrapping_add(difference);
    }
    told
}

const WRONG: [(&str, &str, &Manner, Engine); 20] = [
    ("one kWh more in a row", "other rows", TIGHT, |call, book, rows| {
        then(If::Accepted, call, book, rows, |told, _, rows| {
            if told.count > 0 {
                rows[4] += 1;
            }
        })
    }),
    ("two rows swapped", "other rows", DAY, |call, book, rows| {
        then(If::Accepted, call, book, rows, |told, _, rows| {
            if told.count > 1 {
                rows[..12].rotate_left(6);
            }
        })
    }),
    ("a row too many", "another count", TIGHT, |call, book, rows| {
        then(If::Accepted, call, book, rows, |told, _, _| told.count += u64::from(told.count > 0))
    }),
    ("a row past the counted", "memory past the rows", TIGHT, |call, book, rows| {
        then(If::Accepted, call, book, rows, |told, _, rows| {
            if told.count > 0 {
                rows[6 * told.count as usize] = 0;
            }
        })
    }),
    ("a refusal that writes a row", "memory past the rows", TIGHT, |call, book, rows| {
        then(If::Refused, call, book, rows, |_, _, rows| {
            if let Some(word) = rows.first_mut() {
                *word = 0;
            }
        })
    }),
    ("a refusal that gives a number", "another number", TIGHT, |call, book, rows| {
        then(If::Refused, call, book, rows, |told, book, _| {
            if told.refusal == 19 {
                told.number = book[GIVEN] + 1;
            }
        })
    }),
    ("a refusal that uses up a number", "a refusal or curve changed", TIGHT, |call, book, rows| {
        then(If::Refused, call, book, rows, |told, book, _| {
            book[GIVEN] += u64::from(told.refusal == 19)
        })
    }),
    ("a take that names its offer", "another number", DAY, |call, book, rows| {
        then(If::Accepted, call, book, rows, |told, _, _| {
            if let Call::Take { number, .. } = *call {
                told.number = number;
            }
        })
    }),
    ("today's trade is held", "another refusal", TIGHT, |call, book, rows| match *call {
        Call::Order { unit, period, .. } if held_can_grow(book, unit, period) => {
            let at = held_at(unit as usize - 1, period as usize);
            let held = book[at] + book[at + RAISED];
            with(call, book, rows, &[(at, held), (at + RAISED, 0)])
        }
        _ => exported::make(call, book, rows),
    }),
    ("orders that wait and never match", "another count", TIGHT, |call, book, rows| match call {
        Call::Order { .. } if book.len() > PHASE && book[PHASE] == ROLLING => {
            with(call, book, rows, &[(PHASE, 0)])
        }
        _ => exported::make(call, book, rows),
    }),
    ("full with a place free", "another refusal", ORDERS, |call, book, rows| {
        let full = book.len() > ORDER_COUNT && book[ORDER_COUNT] == 255;
        if full && matches!(call, Call::Order { direction: BUY, .. }) {
            let mut copy = book.to_vec();
            let told = exported::make(call, &mut copy, &mut rows.to_vec());
            return if told.refusal == 0 { Told::of(17) } else { told };
        }
        exported::make(call, book, rows)
    }),
    ("the larger half first", "other rows or points", TIGHT, |call, book, rows| {
        then(If::Accepted, call, book, rows, |_, _, points| {
            if matches!(call, Call::Curve { .. }) {
                points[..48].chunks_mut(2).for_each(|pair| pair.reverse());
            }
        })
    }),
    ("a unit with another's old figures", "another book", TIGHT, |call, book, rows| match call {
        Call::Enrol { .. } => {
            let before = book.to_vec();
            then(If::Accepted, call, book, rows, |told, book, _| {
                let at = held_at(told.number as usize - 1, 0);
                for figure in EACH {
                    book[at + figure] = before[at + figure];
                }
            })
        }
        _ => exported::make(call, book, rows),
    }),
    ("a close that keeps what was lowered", "another book", TIGHT, |call, book, rows| {
        let before = book.to_vec();
        then(If::Accepted, call, book, rows, |_, book, _| {
            if matches!(call, Call::Close) {
                for unit in 0..book[UNIT_COUNT] as usize {
                    let at = held_at(unit, 9) + LOWERED;
                    book[at] = before[at];
                }
            }
        })
    }),
    ("a word past the book", "memory past the book", TIGHT, |call, book, rows| {
        then(If::Accepted, call, book, rows, |_, book, _| {
            if let Some(past) = book.get_mut(words(book[DAYS])) {
                *past = 0;
            }
        })
    }),
    ("a word past the lent rows", "memory past the rows", TIGHT, |call, book, rows| {
        then(If::Accepted, call, book, rows, |told, _, rows| {
            if told.count > 0 {
                // SAFETY: a guard word of the trial follows the rows.
                unsafe { *rows.as_mut_ptr().add(rows.len()) = 0 };
            }
        })
    }),
    ("a word past the lent book", "a refusal or curve changed", TIGHT, |call, book, rows| {
        then(If::Refused, call, book, rows, |_, book, _| {
            // SAFETY: a guard word of the trial follows the book's memory.
            unsafe { *book.as_mut_ptr().add(book.len()) = 0 };
        })
    }),
    ("a mark out of range let through", "another refusal", DAY, |call, book, rows| {
        let units = book.get(UNIT_COUNT).map_or(0, |&units| units.min(64));
        let marks =
            (0..units as usize).flat_map(|unit| (0..24).map(move |p| held_at(unit, p) + MARK));
        let wrong = marks.filter(|&at| book.len() > at && book[at] > 3);
        let mended: Vec<(usize, u64)> = wrong.map(|at| (at, 0)).collect();
        with(call, book, rows, &mended)
    }),
    ("another layout let through", "another refusal", DAY, |call, book, rows| {
        let number = book.get(LAYOUT).filter(|_| !matches!(call, Call::Open { .. }));
        let other = number.map_or(false, |&number| number != LAYOUT_NUMBER);
        let mended: &[(usize, u64)] = if other { &[(LAYOUT, LAYOUT_NUMBER)] } else { &[] };
        with(call, book, rows, mended)
    }),
    ("a capacity one over let through", "another refusal", DAY, |call, book, rows| {
        let most = 5_000_000;
        let over = (0..64).map(unit_at).find(|at| book.get(at + 1) == Some(&(most + 1)));
        let mended: Vec<(usize, u64)> = over.iter().map(|at| (at + 1, most)).collect();
        with(call, book, rows, &mended)
    }),
];

/// Do the figures of this unit stand in this memory, with sums that fit a word?
fn held_can_grow(book: &[u64], unit: u64, period: u64) -> bool {
    let known = (1..=64).contains(&unit) && period < 744;
    known && {
        let at = held_at(unit as usize - 1, period as usize);
        book.len() > at + RAISED && book[at].checked_add(book[at + RAISED]).is_some()
    }
}

#[test]
fn wrong_engines_are_found() {
    for (name, fault, manner, engine) in WRONG {
        let plan = Plan { engine, damage: [4, 4] };
        let mut counts = Counts::default();
        let found = (0..400)
            .find_map(|seed| run_list(plan, seed, manner, manner.length, &mut counts).err());
        let found = found.unwrap_or_else(|| panic!("{name} was not found"));
        println!("{name}: after {} calls and {} damaged books", counts.made(), counts.damages()[0]);
        assert!(found.starts_with(fault), "{name}: {found}");
    }
}

/// The same call while the last of 256 open orders is not counted.
fn with_a_place(call: &Call, book: &mut [u64], rows: &mut [u64]) -> Told {
    with(call, book, rows, &[(ORDER_COUNT, 255)])
}

/// An engine that passes over 17 in one phase.
fn without_17(rolling: bool, call: &Call, book: &mut [u64], rows: &mut [u64]) -> Told {
    let told = exported::make(call, book, rows);
    if told.refusal == 17 && (book[PHASE] == ROLLING) == rolling {
        return with_a_place(call, book, rows);
    }
    told
}

/// Check 17 of an order with one fault each.
const WRONG_PLACES: [(&str, Engine); 4] = [
    ("an order with a remainder let through", |call, book, rows| {
        without_17(true, call, book, rows)
    }),
    ("a full table in the call phase passed", |call, book, rows| {
        without_17(false, call, book, rows)
    }),
    ("17 judged after the limits", |call, book, rows| {
        let told = exported::make(call, book, rows);
        if told.refusal == 17 {
            let other = with_a_place(call, &mut book.to_vec(), &mut rows.to_vec());
            return if other.refusal > 0 { other } else { told };
        }
        told
    }),
    ("an exact fill refused", |call, book, rows| {
        let full = book[ORDER_COUNT] == 256 && matches!(call, Call::Order { .. });
        let (mut after, mut handed) = (book.to_vec(), rows.to_vec());
        let told = exported::make(call, &mut after, &mut handed);
        if full && told.refusal == 0 {
            return Told::of(17);
        }
        book.copy_from_slice(&after);
        rows.copy_from_slice(&handed);
        told
    }),
];

#[test]
fn wrong_places_are_found() {
    for (name, engine) in WRONG_PLACES {
        let mut counts = Counts::default();
        let found = run_deep(engine, 4, 2_000, &mut counts).expect_err(name);
        println!("{name}: after {} deep books", counts.deep);
        assert!(found.starts_with("another refusal"), "{name}: {found}");
    }
}

/// Clears with one fault each.
const WRONG_CLEARS: [(&str, &str, Engine); 4] = [
    ("half of what a row trades", "a matching trades more", |call, book, rows| {
        then(If::Accepted, call, book, rows, |_, _, rows| rows[4] /= 2)
    }),
    ("a price below every ask", "a row's price is outside", |call, book, rows| {
        then(If::Accepted, call, book, rows, |told, _, rows| {
            rows.chunks_mut(6).take(told.count as usize).for_each(|row| row[5] = 0)
        })
    }),
    ("the last rest lost", "an order lost what no row fills", |call, book, rows| {
        then(If::Accepted, call, book, rows, |_, book, _| {
            book[ORDER_COUNT] = book[ORDER_COUNT].saturating_sub(1)
        })
    }),
    ("the first order passed over", "a bid and an ask are left that cross", |call, book, rows| {
        let [direction, price] = [2, 4].map(|word| order_at(0) + word);
        let far = if book[direction] == BUY { 0 } else { 10_000 };
        with(call, book, rows, &[(price, far)])
    }),
];

#[test]
fn wrong_clears_are_found() {
    for (name, fault, engine) in WRONG_CLEARS {
        let mut found = (0..400).filter_map(|seed| run_clears(engine, seed, 2).err());
        assert!(found.any(|found| found.starts_with(fault)), "{name} was not found");
    }
}

/// An order of period 0, by its number, unit, direction, price and quantity.
fn an_order([number, unit, direction, price, quantity]: [u64; 5]) -> Order {
    Order { number, unit, direction, period: 0, price, quantity }
}

/// A row of period 0, by its seller, buyer, quantity and price.
fn a_row([seller, buyer, quantity, price]: [u64; 4]) -> Row {
    Row { way: 3, period: 0, seller, buyer, quantity, price }
}

/// A clear of some orders: its rows, what it leaves, and what the staff find wrong in it.
type Judged =
    (&'static [[u64; 5]], &'static [[u64; 4]], &'static [[u64; 5]], Result<(), &'static str>);

/// The clears of crates/matching/specs/WrongClears.antt.
const JUDGED: [Judged; 7] = [
    (FIGURE_2, &[[3, 1, 10, 475], [4, 2, 4, 475]], &[[2, 2, BUY, 480, 6]], Ok(())),
    (
        FIGURE_2,
        &[[3, 1, 7, 475]],
        &[[1, 1, BUY, 500, 3], [2, 2, BUY, 480, 10], [3, 3, SELL, 450, 3], [4, 4, SELL, 470, 4]],
        Err("a matching trades more"),
    ),
    (
        FIGURE_2,
        &[[3, 1, 10, 481], [4, 2, 4, 481]],
        &[[2, 2, BUY, 480, 6]],
        Err("a row's price is outside"),
    ),
    (FIGURE_2, &[[3, 1, 10, 475], [4, 2, 4, 475]], &[], Err("an order lost what no row fills")),
    (
        TWO_APART,
        &[[3, 2, 5, 455]],
        &[[1, 1, BUY, 500, 5], [4, 4, SELL, 490, 5]],
        Err("a bid and an ask are left that cross"),
    ),
    (TWO_APART, &[[3, 2, 5, 455], [4, 1, 5, 495]], &[], Err("a period has two prices")),
    (
        &[[1, 1, BUY, 500, 10], [2, 1, BUY, 440, 10], [3, 3, SELL, 450, 10]],
        &[[3, 1, 10, 475]],
        &[[1, 1, BUY, 500, 10]],
        Err("a row's price is outside"),
    ),
];

const FIGURE_2: &[[u64; 5]] =
    &[[1, 1, BUY, 500, 10], [2, 2, BUY, 480, 10], [3, 3, SELL, 450, 10], [4, 4, SELL, 470, 4]];
const TWO_APART: &[[u64; 5]] =
    &[[1, 1, BUY, 500, 5], [2, 2, BUY, 460, 5], [3, 3, SELL, 450, 5], [4, 4, SELL, 490, 5]];

#[test]
fn wrong_clears_are_judged() {
    let mut random = Random(1);
    for (orders, rows, left, verdict) in JUDGED {
        let orders: Vec<Order> = orders.iter().copied().map(an_order).collect();
        let rows: Vec<Row> = rows.iter().copied().map(a_row).collect();
        let left: Vec<Order> = left.iter().copied().map(an_order).collect();
        let most = (0..20).try_for_each(|_| nothing_more(&orders, &rows, &mut random).map(|_| ()));
        assert_eq!(most.and_then(|()| judge(&orders, &rows, &left)), verdict, "{rows:?} {left:?}");
    }
}

/// Takes with one fault each.
const WRONG_TAKES: [(&str, &str, Engine); 3] = [
    ("parts of amounts already lessened", "other rows", |call, book, rows| {
        then(If::Accepted, call, book, rows, |told, book, rows| {
            let (mut book, mut again) = (book.to_vec(), rows.to_vec());
            if exported::make(call, &mut book, &mut again).refusal == 0 {
                let words = 6 * told.count as usize;
                rows[..words].copy_from_slice(&again[..words]);
            }
        })
    }),
    ("a kWh of the next listing", "another book", |call, book, rows| {
        then(If::Accepted, call, book, rows, |_, book, _| {
            let Call::Take { number, .. } = *call else { return };
            book[amount_at(number as usize % 8, 0)] -= 1;
        })
    }),
    ("a word past a listing's term", "a word of an offer", |call, book, rows| {
        then(If::Accepted, call, book, rows, |_, book, _| {
            if book[DAYS] < 31 {
                book[amount_at(3, 24 * book[DAYS] as usize)] ^= 1;
            }
        })
    }),
];

#[test]
fn wrong_takes_are_found() {
    for (name, fault, engine) in WRONG_TAKES {
        let found = run_takes(engine, 1, 40).expect_err(name);
        assert!(found.starts_with(fault), "{name}: {found}");
    }
}
