//! Soundness: forged books that break one clause each, forged ones that are sound, and damaged ones.
//! Paper: "A book is sound if", check 1.

mod naive;

use second::book::{Book, Offer, Order, Unit, BUY, CALL, ROLLING, SELL};
use second::calls::{Call, POINTS_LENT, ROWS_LENT};
use second::damage::damage;
use second::generate::Generator;
use second::manners::{MANNERS, NUMBERS};
use second::sound::sound;

fn day(named: &[(usize, u64)]) -> Vec<u64> {
    let mut amounts = vec![0; 24];
    for &(hour, amount) in named {
        amounts[hour] = amount;
    }
    amounts
}

fn order(number: u64, unit: u64, direction: u64, period: u64, price: u64, quantity: u64) -> Order {
    Order { number, unit, direction, period, price, quantity }
}

/// A sound book with all kinds of units, something held, offers and orders.
fn base() -> Book {
    let mut units = Vec::new();
    for (kind, asset) in [(2, 0), (3, 0), (1, 0), (4, 20)] {
        units.push(Unit::fresh(kind, 10, asset, 24));
    }
    for unit in &mut units[..2] {
        unit.figures[0].held = 5;
        unit.figures[0].volume = 5;
    }
    let offer = |number, unit, partner, amounts| Offer {
        number,
        unit,
        partner,
        price: 5,
        taken: 0,
        amounts,
    };
    Book {
        days: 1,
        floor: 2,
        ceiling: 9,
        phase: CALL,
        given: 9,
        units,
        offers: vec![offer(2, 1, 2, day(&[(1, 3)])), offer(4, 4, 0, day(&[(2, 4)]))],
        orders: vec![
            order(1, 1, SELL, 3, 6, 2),
            order(5, 2, BUY, 3, 4, 2),
            order(9, 2, SELL, 0, 9, 5),
        ],
    }
}

/// Both renderings of soundness say this of the changed base, in both phases.
fn judge(name: &str, expected: bool, change: impl Fn(&mut Book)) {
    for phase in [CALL, ROLLING] {
        judge_in(phase, name, expected, &change);
    }
}

fn judge_in(phase: u64, name: &str, expected: bool, change: impl Fn(&mut Book)) {
    let mut book = base();
    book.phase = phase;
    assert!(sound(&book) && naive::sound(&book), "the base is sound");
    change(&mut book);
    assert_eq!(sound(&book), expected, "{name} in phase {phase}");
    assert_eq!(naive::sound(&book), expected, "{name} in phase {phase}, literally");
}

fn unsound(name: &str, change: impl Fn(&mut Book)) {
    judge(name, false, change);
}

fn still_sound(name: &str, change: impl Fn(&mut Book)) {
    judge(name, true, change);
}

/// A forged book that breaks the fit of one unit alone, with this number.
fn misfit(name: &str, unit: u64, refusal: u64, change: impl Fn(&mut Book)) {
    unsound(name, &change);
    let mut book = base();
    change(&mut book);
    for place in 0..book.units.len() {
        let expected = if place as u64 + 1 == unit { refusal } else { 0 };
        assert_eq!(naive::fit(&book, place), expected, "{name}");
    }
}

#[test]
fn figures_of_the_book_in_range() {
    unsound("no days", |book| {
        book.days = 0;
        book.offers.clear();
        book.orders.clear();
        book.units.iter_mut().for_each(|unit| unit.figures.clear());
    });
    unsound("32 days", |book| {
        book.days = 32;
        book.offers.iter_mut().for_each(|offer| offer.amounts.resize(768, 0));
        book.units.iter_mut().for_each(|unit| unit.figures.resize(768, Default::default()));
    });
    still_sound("31 days", |book| {
        book.days = 31;
        book.offers.iter_mut().for_each(|offer| offer.amounts.resize(744, 0));
        book.units.iter_mut().for_each(|unit| unit.figures.resize(744, Default::default()));
    });
    unsound("days without their figures", |book| book.days = 2);
    unsound("many days", |book| book.days = u64::MAX);
    unsound("floor over ceiling", |book| {
        book.offers.clear();
        book.orders.clear();
        (book.floor, book.ceiling) = (9, 8);
    });
    unsound("ceiling over 10,000,000", |book| book.ceiling = 10_000_001);
    still_sound("ceiling 10,000,000", |book| book.ceiling = 10_000_000);
    unsound("a third phase", |book| book.phase = 2);
    unsound("65,536 numbers given", |book| book.given = 65_536);
    still_sound("65,535 numbers given", |book| book.given = 65_535);
    still_sound("64 units", |book| book.units.resize(64, Unit::fresh(3, 1, 0, 24)));
    unsound("65 units", |book| book.units.resize(65, Unit::fresh(3, 1, 0, 24)));
}

#[test]
fn figures_of_units_in_range() {
    let spare = |kind, capacity, asset, periods| {
        move |book: &mut Book| book.units.push(Unit::fresh(kind, capacity, asset, periods))
    };
    still_sound("a fifth unit", spare(1, 5_000_000, 4_000_000_000, 24));
    still_sound("a small unit", spare(4, 1, 0, 24));
    unsound("kind 0", spare(0, 1, 0, 24));
    unsound("kind 5", spare(5, 1, 0, 24));
    unsound("capacity 0", spare(2, 0, 0, 24));
    unsound("capacity 5,000,001", spare(2, 5_000_001, 0, 24));
    unsound("asset 4,000,000,001", spare(3, 1, 4_000_000_001, 24));
    unsound("a period too few", spare(3, 1, 0, 23));
    unsound("a period too many", spare(3, 1, 0, 25));
    still_sound("bought today", |book| book.units[3].figures[9].mark = 2);
    still_sound("sold and bought today", |book| book.units[3].figures[9].mark = 3);
    unsound("a mark of 4", |book| book.units[3].figures[9].mark = 4);
    unsound("a mark of another bit", |book| book.units[3].figures[9].mark = 1 << 63);
}

#[test]
fn units_fit() {
    still_sound("hour full", |book| book.units[0].figures[1].raised = 7);
    misfit("hour over", 1, 19, |book| book.units[0].figures[1].raised = 8);
    misfit("held over the hour", 1, 19, |book| book.units[0].figures[9].held = 11);
    misfit("order over the hour", 1, 19, |book| book.orders[0].quantity = 11);
    misfit("listing over the hour", 4, 19, |book| book.offers[1].amounts[2] = 11);
    misfit("offer and order over the hour", 1, 19, |book| book.offers[0].amounts[3] = 9);
    still_sound("sun at 6", |book| book.units[2].figures[6].held = 10);
    misfit("sun at 5", 3, 19, |book| book.units[2].figures[5].held = 1);
    misfit("sun at 20", 3, 19, |book| book.units[2].figures[20].raised = 1);
    misfit("lowering past held", 2, 19, |book| book.orders[2].quantity = 6);
    misfit("lowered today past held", 2, 19, |book| book.units[1].figures[0].lowered = 1);
    misfit("raising today is not held", 2, 19, |book| {
        book.units[1].figures[0].held = 4;
        book.units[1].figures[0].raised = 5;
    });
    still_sound("term full", |book| {
        for hour in 6..16 {
            book.units[2].figures[hour].held = 10;
        }
    });
    misfit("solar term over", 3, 20, |book| {
        for hour in 6..17 {
            book.units[2].figures[hour].held = if hour < 16 { 10 } else { 1 };
        }
    });
    misfit("a purchase today frees no term room", 3, 20, |book| {
        for hour in 6..16 {
            book.units[2].figures[hour].held = 10;
        }
        book.units[2].figures[6].lowered = 5;
        book.units[2].figures[16].raised = 1;
    });
    still_sound("asset met", |book| book.units[3].asset = 4);
    misfit("asset passed", 4, 20, |book| book.units[3].asset = 3);
    misfit("asset passed by held and raised", 4, 20, |book| {
        book.units[3].figures[7].held = 8;
        book.units[3].figures[8].raised = 9;
    });
    // Unit 1: 5 in open declarations, volume limit 288. Unit 2: 7 open, 240. Unit 4: 4 open, 20.
    still_sound("volume full", |book| book.units[0].figures[9].volume = 278);
    misfit("generator's volume over", 1, 21, |book| book.units[0].figures[9].volume = 279);
    still_sound("load's volume full", |book| book.units[1].figures[9].volume = 228);
    misfit("load's volume over", 2, 21, |book| book.units[1].figures[9].volume = 229);
    misfit("retailer's volume over", 4, 21, |book| book.units[3].figures[9].volume = 17);
    // True sums: nothing wraps.
    for word in [u64::MAX, u64::MAX - 1, 1 << 63, 1 << 32] {
        misfit("huge held", 1, 19, |book| book.units[0].figures[9].held = word);
        misfit("huge raised", 1, 19, |book| book.units[0].figures[0].raised = word);
        misfit("huge lowered", 2, 19, |book| book.units[1].figures[0].lowered = word);
        misfit("huge volume", 1, 21, |book| book.units[0].figures[9].volume = word);
        misfit("huge volumes", 1, 21, |book| {
            book.units[0].figures[9].volume = word;
            book.units[0].figures[10].volume = word;
        });
        misfit("huge order", 1, 19, |book| book.orders[0].quantity = word);
    }
    unsound("huge amounts", |book| book.offers[1].amounts = vec![1 << 63; 24]);
    unsound("amounts that wrap to 4", |book| {
        book.offers[1].amounts = day(&[(2, u64::MAX), (3, 5)]);
    });
}

#[test]
fn offers_name_units_of_their_side() {
    still_sound("listing by a generator", |book| book.offers[0].partner = 0);
    still_sound("bilateral to a retailer", |book| book.offers[0].partner = 4);
    unsound("bilateral to a generator", |book| book.offers[0].partner = 3);
    unsound("bilateral to itself", |book| book.offers[0].partner = 1);
    unsound("bilateral by a load", |book| book.offers[1].partner = 2);
    unsound("partner unknown", |book| book.offers[0].partner = 5);
    unsound("offer by unit 0", |book| book.offers[1].unit = 0);
    unsound("offer by an unknown unit", |book| book.offers[1].unit = 5);
    unsound("order by unit 0", |book| book.orders[0].unit = 0);
    unsound("order by an unknown unit", |book| book.orders[0].unit = 5);
    unsound("order by no unit", |book| book.orders[0].unit = u64::MAX);
    still_sound("order by another unit", |book| book.orders[1].unit = 4);
}

#[test]
fn figures_of_declarations_in_range() {
    unsound("offer below the floor", |book| book.offers[0].price = 1);
    still_sound("offer at the floor", |book| book.offers[0].price = 2);
    unsound("offer above the ceiling", |book| book.offers[0].price = 10);
    unsound("order below the floor", |book| book.orders[1].price = 1);
    unsound("order above the ceiling", |book| book.orders[0].price = 10);
    still_sound("order at the ceiling", |book| book.orders[0].price = 9);
    unsound("taken twice", |book| book.offers[0].taken = 2);
    still_sound("a listing of which some is taken", |book| book.offers[1].taken = 1);
    unsound("an empty offer", |book| book.offers[0].amounts = day(&[]));
    unsound("an amount too few", |book| book.offers[0].amounts.truncate(23));
    unsound("an amount too many", |book| book.offers[0].amounts.push(0));
    unsound("an empty order", |book| book.orders[0].quantity = 0);
    unsound("a third direction", |book| book.orders[0].direction = 2);
    unsound("no such period", |book| book.orders[0].period = 24);
    unsound("a far period", |book| book.orders[0].period = u64::MAX);
    still_sound("the last period", |book| book.orders[0].period = 23);
}

#[test]
fn tables_in_range() {
    let offers = |count: u64| {
        move |book: &mut Book| {
            book.given = 300;
            for number in 11..11 + count - 2 {
                let mut offer = book.offers[1].clone();
                offer.number = number;
                offer.amounts = day(&[(number as usize, 1)]);
                book.offers.push(offer);
            }
        }
    };
    still_sound("8 offers", offers(8));
    unsound("9 offers", offers(9));
    let orders = |count: u64| {
        move |book: &mut Book| {
            book.given = 300;
            book.units.push(Unit::fresh(2, 1_000, 0, 24));
            for number in 11..11 + count - 3 {
                book.orders.push(order(number, 5, SELL, 7, 9, 1));
            }
        }
    };
    still_sound("256 orders", orders(256));
    unsound("257 orders", orders(257));
}

#[test]
fn numbers_differ_and_were_given() {
    still_sound("the last number", |book| book.orders[2].number = 9);
    unsound("an order's number not given", |book| book.orders[2].number = 10);
    unsound("an offer's number not given", |book| book.offers[1].number = 10);
    unsound("fewer given", |book| book.given = 8);
    unsound("number 0 of an order", |book| book.orders[0].number = 0);
    unsound("number 0 of an offer", |book| book.offers[0].number = 0);
    unsound("one number for two orders", |book| book.orders[2].number = 5);
    unsound("one number for two offers", |book| book.offers[1].number = 2);
    unsound("one number for an offer and an order", |book| book.orders[1].number = 4);
    unsound("orders not rising", |book| book.orders.swap(0, 1));
    unsound("offers not rising", |book| book.offers.swap(0, 1));
}

#[test]
fn no_unit_goes_both_ways() {
    // Unit 2 sells 5 of period 0 at 9; a buy there at 2 does not cross.
    unsound("both ways", |book| {
        book.given = 10;
        book.orders.push(order(10, 2, BUY, 0, 2, 1));
    });
    still_sound("both ways in two periods", |book| {
        book.given = 10;
        book.orders.push(order(10, 2, BUY, 1, 2, 1));
    });
    still_sound("a listing beside an order", |book| {
        book.given = 10;
        let mut offer = book.offers[1].clone();
        (offer.number, offer.unit) = (10, 2);
        offer.amounts = day(&[(0, 1)]);
        book.offers.push(offer);
    });
}

#[test]
fn nothing_crosses_in_the_rolling_phase() {
    // Period 3: unit 1 sells at 6, unit 2 buys at 4.
    still_sound("just apart", |book| book.orders[1].price = 5);
    judge_in(CALL, "crossing", true, |book| book.orders[1].price = 6);
    judge_in(ROLLING, "crossing", false, |book| book.orders[1].price = 6);
    judge_in(ROLLING, "far crossing", false, |book| book.orders[1].price = 9);
    still_sound("in other periods", |book| {
        book.orders[1].price = 9;
        book.orders[1].period = 4;
    });
    // Prices of 0 too.
    judge_in(ROLLING, "a sell at 0 alone", true, |book| {
        book.floor = 0;
        book.orders[0].price = 0;
        book.orders.remove(1);
    });
    judge_in(ROLLING, "crossing at 0", false, |book| {
        book.floor = 0;
        book.orders[0].price = 0;
        book.orders[1].price = 0;
    });
}

#[test]
fn what_the_list_does_not_demand() {
    still_sound("generators' nets unlike loads'", |book| book.units[0].figures[9].held = 3);
    still_sound("a volume less than the nets", |book| book.units[0].figures[0].volume = 0);
    still_sound("marks with nothing traded", |book| book.units[0].figures[9].mark = 1);
    still_sound("an open buy beside a sale", |book| book.units[1].figures[3].mark = 1);
    still_sound("a bilateral offer marked as taken", |book| book.offers[0].taken = 1);
    still_sound("three orders of a unit and period", |book| {
        book.given = 11;
        book.orders.push(order(10, 1, SELL, 3, 6, 1));
        book.orders.push(order(11, 1, SELL, 3, 6, 1));
    });
}

#[test]
fn calls_on_forged_sound_books() {
    // Three open in the call phase: a fourth gives 16.
    let mut book = base();
    book.given = 11;
    book.orders.push(order(10, 1, SELL, 3, 6, 1));
    book.orders.push(order(11, 1, SELL, 3, 6, 1));
    assert_eq!(book.order(1, SELL, 3, 6, 1, ROWS_LENT), Err(16));
    // A mark beside an open order of the other direction: both directions give 15.
    let mut book = base();
    book.units[1].figures[3].mark = 1;
    assert_eq!(book.order(2, BUY, 3, 4, 1, ROWS_LENT), Err(15));
    assert_eq!(book.order(2, SELL, 3, 9, 1, ROWS_LENT), Err(15));
    // Its open buy is met: the mark keeps the sale, and both directions give 15 until the close.
    book.phase = ROLLING;
    assert_eq!(book.order(1, SELL, 3, 4, 2, ROWS_LENT).unwrap().rows.len(), 1);
    let marks = |book: &Book| [0, 1].map(|unit: usize| book.units[unit].figures[3].mark);
    assert_eq!(marks(&book), [1, 3]);
    assert!(sound(&book));
    assert_eq!(book.order(2, BUY, 3, 4, 1, ROWS_LENT), Err(15));
    assert_eq!(book.order(2, SELL, 3, 9, 1, ROWS_LENT), Err(15));
    book.close().unwrap();
    assert_eq!(marks(&book), [0, 0]);
    // A bilateral offer marked as taken: not withdrawn, but taken by its partner.
    let mut book = base();
    book.offers[0].taken = 1;
    assert_eq!(book.withdraw(1, 2), Err(13));
    assert_eq!(book.take(2, 2, 3, ROWS_LENT).unwrap().rows.len(), 1);
    assert!(sound(&book));
}

#[test]
fn every_call_makes_check_1_first() {
    let mut book = base();
    book.orders[0].quantity = 0;
    let before = book.clone();
    assert_eq!(book.enrol(0, 0, 0), Err(1));
    assert_eq!(book.offer(0, 0, 0, &[]), Err(1));
    assert_eq!(book.take(0, 0, 0, 0), Err(1));
    assert_eq!(book.withdraw(0, 0), Err(1));
    assert_eq!(book.order(0, 0, 0, 0, 0, 0), Err(1));
    assert_eq!(book.cancel(0, 0), Err(1));
    assert_eq!(book.clear(0), Err(1));
    assert_eq!(book.close(), Err(1));
    assert_eq!(book.curve(0, 0, 0), Err(1));
    assert_eq!(book.curve(1, 0, POINTS_LENT), Err(1));
    assert_eq!(book, before);
    // Opening does not look at what stands there.
    assert!(book.open(false, 1, 0, 9).is_ok());
    assert!(sound(&book));
    assert!(!sound(&Book::blank()));
}

#[test]
fn damaged_books() {
    let mut sounds = 0;
    let mut unsounds = 0;
    for (place, manner) in MANNERS.iter().enumerate() {
        if place >= NUMBERS {
            continue;
        }
        for seed in 0..4 {
            let mut generator = Generator::new(seed, manner);
            let mut book = Book::blank();
            for _ in 0..manner.length {
                let call = generator.call(&book);
                let _ = book.make(&call);
                if book.days == 0 {
                    continue;
                }
                let mut damaged = book.clone();
                for _ in 0..1 + generator.random.below(2) {
                    damage(&mut generator.random, &mut damaged);
                }
                let expected = naive::sound(&damaged);
                assert_eq!(sound(&damaged), expected, "{} {seed}: {damaged:?}", manner.name);
                *(if expected { &mut sounds } else { &mut unsounds }) += 1;
                damaged_call(&mut generator, &book, &mut damaged, expected);
            }
        }
    }
    assert!(sounds > 1_000 && unsounds > 1_000, "{sounds} sound, {unsounds} not");
}

/// A call on a damaged book gives 1 just if it is not sound, and leaves a sound one sound.
fn damaged_call(generator: &mut Generator, book: &Book, damaged: &mut Book, expected: bool) {
    let call = generator.call(book);
    if matches!(call, Call::Open { .. }) {
        return;
    }
    let before = damaged.clone();
    let answer = damaged.make(&call);
    assert_eq!(answer == Err(1), !expected, "{call:?}");
    if answer.is_err() {
        assert_eq!(*damaged, before);
    }
    assert_eq!(naive::sound(damaged), expected, "{call:?} on {before:?}");
}
