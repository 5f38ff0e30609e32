//! The paper's figures 1 to 8.
//! Paper: "Figures to check".

use second::book::{Book, Figures, Order, BUY, SELL};
use second::calls::{Answer, Row, ROWS_LENT};
use second::limits::limits;
use second::sharing::share;

fn opened(days: u64, ceiling: u64) -> Book {
    let mut book = Book::blank();
    assert_eq!(book.open(false, days, 0, ceiling), Ok(Answer::of(0)));
    book
}

/// Amounts of a day, 0 where not named.
fn day(named: &[(usize, u64)]) -> Vec<u64> {
    let mut amounts = vec![0; 24];
    for &(hour, amount) in named {
        amounts[hour] = amount;
    }
    amounts
}

fn order(
    book: &mut Book,
    unit: u64,
    direction: u64,
    period: u64,
    price: u64,
    quantity: u64,
) -> u64 {
    match book.order(unit, direction, period, price, quantity, ROWS_LENT) {
        Ok(_) => 0,
        Err(refusal) => refusal,
    }
}

#[test]
fn figure_1_sharing() {
    let mut parts = [77; 4];
    assert_eq!(share(4, &[3, 3, 3], &mut parts), 0);
    assert_eq!(parts, [2, 1, 1, 77]);
    assert_eq!(share(2, &[1, 2, 2], &mut parts), 0);
    assert_eq!(parts, [0, 1, 1, 77]);
}

#[test]
fn figure_2_clear() {
    let mut book = opened(1, 1_000);
    for kind in [3, 3, 2, 2] {
        book.enrol(kind, 100, 0).unwrap();
    }
    assert_eq!(order(&mut book, 1, BUY, 0, 500, 10), 0);
    assert_eq!(order(&mut book, 2, BUY, 0, 480, 10), 0);
    assert_eq!(order(&mut book, 3, SELL, 0, 450, 10), 0);
    assert_eq!(order(&mut book, 4, SELL, 0, 470, 4), 0);
    let row =
        |seller, buyer, quantity| Row { way: 3, period: 0, seller, buyer, quantity, price: 475 };
    let rows = vec![row(3, 1, 10), row(4, 2, 4)];
    assert_eq!(book.clear(ROWS_LENT), Ok(Answer { number: 0, rows }));
    let rest = Order { number: 2, unit: 2, direction: BUY, period: 0, price: 480, quantity: 6 };
    assert_eq!(book.orders, [rest]);
    assert_eq!(book.phase, 1);
}

#[test]
fn figure_3_price() {
    let mut book = opened(1, 1_000);
    book.enrol(3, 100, 0).unwrap();
    book.enrol(2, 100, 0).unwrap();
    assert_eq!(order(&mut book, 1, BUY, 5, 481, 3), 0);
    assert_eq!(order(&mut book, 2, SELL, 5, 470, 3), 0);
    assert_eq!(book.clear(ROWS_LENT).unwrap().rows[0].price, 476);
}

#[test]
fn figure_4_matching() {
    let mut book = opened(1, 1_000);
    for kind in [2, 2, 3] {
        book.enrol(kind, 100, 0).unwrap();
    }
    book.clear(ROWS_LENT).unwrap();
    assert_eq!(order(&mut book, 1, SELL, 0, 460, 5), 0);
    assert_eq!(order(&mut book, 2, SELL, 0, 455, 5), 0);
    let answer = book.order(3, BUY, 0, 460, 7, ROWS_LENT).unwrap();
    let row =
        |seller, quantity, price| Row { way: 4, period: 0, seller, buyer: 3, quantity, price };
    assert_eq!(answer, Answer { number: 3, rows: vec![row(2, 5, 455), row(1, 2, 460)] });
}

#[test]
fn figure_5_limits_of_a_generator() {
    assert_eq!(limits(1, 2, 100, 0, 0), Ok([100, 2_400, 2_880]));
    let mut book = opened(1, 1_000);
    book.enrol(2, 100, 0).unwrap();
    assert_eq!(order(&mut book, 1, SELL, 0, 5, 101), 19);
    assert_eq!(order(&mut book, 1, SELL, 0, 5, 100), 0);
    assert_eq!(order(&mut book, 1, SELL, 0, 5, 1), 19);
}

#[test]
fn figure_6_limits_of_a_solar_generator() {
    let mut book = opened(1, 1_000);
    book.enrol(1, 100, 0).unwrap();
    for night in [0, 5, 20, 23] {
        assert_eq!(order(&mut book, 1, SELL, night, 5, 1), 19);
    }
    assert_eq!(order(&mut book, 1, SELL, 6, 5, 101), 19);
    assert_eq!(order(&mut book, 1, SELL, 6, 5, 100), 0);
    assert_eq!(order(&mut book, 1, SELL, 19, 5, 100), 0);
    for hour in 7..15 {
        assert_eq!(order(&mut book, 1, SELL, hour, 5, 100), 0);
    }
    assert_eq!(order(&mut book, 1, SELL, 15, 5, 1), 20);
    assert_eq!(order(&mut book, 1, SELL, 6, 5, 1), 19);
}

#[test]
fn figure_7_lowering_after_the_close() {
    let mut book = opened(1, 1_000);
    book.enrol(2, 100, 0).unwrap();
    book.enrol(3, 100, 0).unwrap();
    book.offer(1, 0, 5, &day(&[(3, 100)])).unwrap();
    assert_eq!(book.take(2, 1, 100, ROWS_LENT).unwrap().rows.len(), 1);
    assert_eq!(order(&mut book, 1, BUY, 3, 5, 1), 19);
    book.close().unwrap();
    assert_eq!(order(&mut book, 1, BUY, 3, 5, 101), 19);
    assert_eq!(order(&mut book, 1, BUY, 3, 5, 100), 0);
}

#[test]
fn figure_8_curve() {
    let mut book = opened(2, 1_000);
    book.enrol(2, 100, 0).unwrap();
    book.enrol(3, 100, 0).unwrap();
    let mut amounts = vec![0; 48];
    amounts[24] = 7;
    amounts[25] = 1;
    book.offer(1, 2, 5, &amounts).unwrap();
    book.take(2, 1, 8, ROWS_LENT).unwrap();
    for unit in [1, 2] {
        let points = book.curve(unit, 1, 48).unwrap();
        assert_eq!(points[..6], [3, 4, 0, 1, 0, 0]);
        assert_eq!(book.curve(unit, 0, 48).unwrap(), [0; 48]);
    }
    // The net of today: what is held counts on, lowering comes off.
    book.units[0].figures[24] = Figures { held: 9, raised: 4, lowered: 2, volume: 15, mark: 0 };
    assert_eq!(book.curve(1, 1, 48).unwrap()[..2], [5, 6]);
}
