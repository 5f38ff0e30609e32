//! The engine on random lists and damaged books: the exported functions and the safe crate.

use second::book::{Order, BUY, CALL, ROLLING, SELL};
use second::calls::{Call, ROWS_LENT};
use second::manners::{Manner, MANNERS, MONTH, NUMBERS};
use trials::books::{book, each_call};
use trials::clears::run_clears;
use trials::deep::run_deep;
use trials::engine::{published, safe, Trial};
use trials::exported;
use trials::layout::{decode, encode, words};
use trials::lists::{run_list, run_lists, Counts, Plan, TERM};
use trials::random::Random;
use trials::stack::stack_of;
use trials::takes::run_takes;

/// Lists with damaged books between their calls.
const PLAN: Plan = Plan { engine: exported::make, damage: [8, 4] };

#[test]
fn published_lengths() {
    assert!(published());
}

/// A list of each manner, then others. Each refusal of each call comes but 18, which is for a test of its own.
#[test]
fn lists_and_damaged_books() {
    let mut counts = Counts::default();
    for (place, manner) in MANNERS.iter().enumerate() {
        let most = if place == MONTH { 150 } else { manner.length };
        if place != NUMBERS {
            run_list(PLAN, place as u64, manner, most, &mut counts).unwrap();
        }
    }
    run_lists(PLAN, 2026, 60_000, &mut counts).unwrap();
    print!("{counts}");
    assert!((1..=21).all(|refusal| (counts.told(refusal) > 0) == (refusal != 18)));
    // Ten calls are accepted, and can be refused in 54 ways, of which two are 18.
    assert_eq!(counts.calls.len(), 10 + 54 - 2, "{:?}", counts.calls);
    assert_eq!((counts.most_units, counts.most_offers, counts.most_orders), (64, 8, 256));
    assert!(counts.rows[1..].iter().all(|&rows| rows > 500));
    assert!(counts.edges > 1_000);
    // An opening asks for no sound book; every other call met damaged books of both verdicts.
    assert_eq!(counts.damaged.len(), 10);
    counts.damaged.remove("open");
    assert!(counts.damaged.values().all(|&[all, unsound]| unsound > 300 && all - unsound > 300));
}

/// Terms of 1 to 31 days.
#[test]
fn every_term() {
    let mut counts = Counts::default();
    for days in 1..=31 {
        let manner = Box::leak(Box::new(Manner { days: [days; 2], ..TERM }));
        run_list(PLAN, days, manner, 120, &mut counts).unwrap();
    }
    print!("{counts}");
    assert_eq!(counts.days.len(), 31);
}

/// All 65,535 numbers of a day, and what comes after them.
#[test]
fn all_numbers_of_a_day() {
    let mut counts = Counts::default();
    let manner = &MANNERS[NUMBERS];
    let plan = Plan { damage: [100, 1], ..PLAN };
    run_list(plan, 3, manner, manner.length, &mut counts).unwrap();
    print!("{counts}");
    assert_eq!(counts.most_given, 65_535);
    for call in ["offer", "order"] {
        assert!(counts.calls[&(call, 18)] > 100);
    }
}

/// Orders that meet up to 256, and clears of up to 256 orders; orders with 256 open, of which nothing, some or all waits.
#[test]
fn deep_books() {
    let mut counts = Counts::default();
    run_deep(PLAN.engine, 8, 20_000, &mut counts).unwrap();
    print!("{counts}");
    assert!(counts.most_rows["order"] == 256 && counts.most_rows["clear"] > 200);
    assert!(counts.full.iter().all(|&orders| orders > 300), "{:?}", counts.full);
}

/// Clears of up to 256 orders: no matching trades more, nothing is left that crosses, each row lies between its orders.
#[test]
fn nothing_trades_more() {
    let [rows, matchings] = run_clears(PLAN.engine, 10, 2_000).unwrap();
    println!("{rows} rows beside {matchings} matchings");
    assert!(rows > 100_000 && matchings > 500_000);
}

/// Takes from eight listings, each word of them looked at.
#[test]
fn takes_in_place() {
    let [lessened, words] = run_takes(PLAN.engine, 2, 400).unwrap();
    println!("{lessened} amounts went down, of {words} words");
    assert!(lessened > 30_000);
}

/// No call needs more stack than the README promises.
#[test]
fn stack_of_each_call() {
    for (name, book, call) in each_call(31, 64, 255) {
        let bytes = stack_of(book, call);
        println!("{name}: {bytes} bytes of stack");
        assert!(bytes < 80 << 10, "{name} needs {bytes} bytes");
    }
}

/// Marks of ways 3 and 4 that no calls make, each with each: what orders, a clear and a close make of them.
#[test]
fn forged_marks() {
    let mut random = Random(9);
    let mut trial = Trial::new(PLAN.engine, words(1), &mut random);
    let (period, lent) = (9, ROWS_LENT);
    let mut calls = vec![Call::Clear { lent }, Call::Close];
    for unit in 1..=4 {
        for (direction, price) in [(SELL, 999), (BUY, 1_000)] {
            calls.push(Call::Order { unit, direction, period, price, quantity: 7, lent });
        }
    }
    let mut refused = 0;
    // Unit 1 sells and unit 2 buys: in the call phase at prices that meet.
    for (phase, bid) in [(CALL, 1_000), (ROLLING, 999)] {
        let sell = Order { number: 2, unit: 1, direction: SELL, period, price: 1_000, quantity: 5 };
        let buy = Order { number: 3, unit: 2, direction: BUY, price: bid, ..sell };
        for (marks, call) in (0..16).flat_map(|marks| calls.iter().map(move |call| (marks, call))) {
            let mut forged = book(1, 4, phase, vec![sell, buy]);
            for (unit, mark) in forged.units.iter_mut().zip([marks % 4, marks / 4]) {
                unit.figures[period as usize].mark = mark;
            }
            trial.forge(forged);
            let made = trial.call(call, words(1), &mut random);
            let (told, _) = made.unwrap_or_else(|fault| panic!("{fault}: {marks} {call:?}"));
            refused += u64::from(told.refusal == 15);
        }
    }
    // Against an own open order always, along it by two marks of four.
    assert_eq!(refused, 2 * (16 + 16 + 8 + 8));
}

#[test]
fn the_safe_crate() {
    let mut counts = Counts::default();
    run_lists(Plan { engine: safe, ..PLAN }, 5, 10_000, &mut counts).unwrap();
    print!("{counts}");
}

/// Writing a book into memory and reading it gives the book again.
#[test]
fn the_layout_there_and_back() {
    let mut random = Random(6);
    for manner in [&MANNERS[0], &MANNERS[5], &TERM] {
        let mut generator = second::generate::Generator::new(random.word(), manner);
        let mut book = second::book::Book::blank();
        for _ in 0..200 {
            let call = generator.call(&book);
            let _ = book.make(&call);
        }
        let mut memory: Vec<u64> = (0..words(book.days)).map(|_| random.word()).collect();
        encode(&book, &mut memory);
        assert_eq!(decode(&memory), Some(book));
        assert_eq!(decode(&memory[1..]), None);
        assert_eq!(decode(&memory[..memory.len() - 1]), None);
    }
}
