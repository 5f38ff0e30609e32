//! The order of the checks of each call: all faults at once, then mended one by one.
//! Paper: "Refusals by place of check", and the direct calls of sharing and limits.

use second::book::{Book, Offer, Order, Unit, BUY, CALL, ROLLING, SELL};
use second::calls::{Answer, POINTS_LENT, ROWS_LENT};
use second::limits::limits;
use second::sharing::share;
use second::sound::sound;

fn day(named: &[(usize, u64)]) -> Vec<u64> {
    let mut amounts = vec![0; 24];
    for &(hour, amount) in named {
        amounts[hour] = amount;
    }
    amounts
}

/// Unit 1: retailer of 10 kW, asset 6. Unit 2: large generator. Unit 3: large load.
fn book() -> Book {
    let units =
        vec![Unit::fresh(4, 10, 6, 24), Unit::fresh(2, 1_000, 0, 24), Unit::fresh(3, 1_000, 0, 24)];
    let mut book = Book::blank();
    book.open(false, 1, 1, 9).unwrap();
    book.units = units;
    book
}

fn sells(from: u64, to: u64) -> impl Iterator<Item = Order> {
    (from..=to).map(|number| Order {
        number,
        unit: 2,
        direction: SELL,
        period: 7,
        price: 9,
        quantity: 1,
    })
}

/// Mends one fault.
type Mend = fn(&mut Try);

/// An order's arguments, and the book that it meets.
#[derive(Clone)]
struct Try {
    book: Book,
    unit: u64,
    direction: u64,
    period: u64,
    price: u64,
    quantity: u64,
    lent: u64,
}

#[test]
fn order() {
    let mut wrong = Try {
        book: book(),
        unit: 4,
        direction: 2,
        period: 24,
        price: 10,
        quantity: 0,
        lent: ROWS_LENT - 1,
    };
    // Sold in period 0 today, two open buys there, all numbers used, 256 orders, and a volume that
    // leaves 2 of the 6 that the asset lets.
    let book = &mut wrong.book;
    book.given = Book::MOST_NUMBERS;
    book.units[0].figures[0].mark = 1;
    book.units[0].figures[5].volume = 2;
    for number in [1, 2] {
        let own = Order { number, unit: 1, direction: BUY, period: 0, price: 1, quantity: 1 };
        book.orders.push(own);
    }
    book.orders.extend(sells(3, 256));
    assert!(sound(book));
    let steps: [(u64, Mend); 14] = [
        (6, |all| all.unit = 1),
        (7, |all| all.lent = ROWS_LENT),
        (8, |all| all.price = 1),
        (9, |all| all.quantity = 4_000_000_000),
        (10, |all| all.period = 0),
        (12, |all| all.direction = BUY),
        (15, |all| all.book.units[0].figures[0].mark = 2),
        (16, |all| all.book.phase = ROLLING),
        (17, |all| all.book.orders.truncate(255)),
        (18, |all| all.book.given -= 1),
        (19, |all| all.quantity = 8),
        (20, |all| all.quantity = 3),
        (21, |all| all.quantity = 2),
        (0, |_| {}),
    ];
    for (expected, mend) in steps {
        let mut copy = wrong.clone();
        let Try { unit, direction, period, price, quantity, lent, .. } = wrong;
        match copy.book.order(unit, direction, period, price, quantity, lent) {
            Err(refusal) => {
                assert_eq!(refusal, expected);
                assert_eq!(copy.book, wrong.book);
            }
            Ok(answer) => {
                assert_eq!(expected, 0);
                assert_eq!(answer, Answer::of(Book::MOST_NUMBERS));
                assert_eq!(copy.book.orders.len(), Order::MOST);
            }
        }
        mend(&mut wrong);
    }
}

/// Paper 02, Job 4: with 256 open, what trades whole in the rolling phase passes, and nothing else.
#[test]
fn order_with_256_open() {
    let mut full = book();
    full.orders.extend(sells(1, 256));
    full.given = 256;
    let tries = [
        (ROLLING, 7, 9, 256, None),
        (ROLLING, 7, 9, 1, None),
        (ROLLING, 7, 9, 257, Some(17)),
        (ROLLING, 7, 8, 1, Some(17)),
        (ROLLING, 8, 9, 1, Some(17)),
        (CALL, 7, 9, 1, Some(17)),
        // Before the limit of 1,000 in an hour.
        (ROLLING, 7, 9, 1_001, Some(17)),
    ];
    for (phase, period, price, quantity, refusal) in tries {
        let mut book = Book { phase, ..full.clone() };
        assert!(sound(&book));
        let made = book.order(3, BUY, period, price, quantity, ROWS_LENT);
        assert_eq!(made.as_ref().err(), refusal.as_ref());
        if let Ok(answer) = made {
            assert_eq!((answer.number, answer.rows.len() as u64), (257, quantity));
            assert_eq!(book.orders.len() as u64, 256 - quantity);
        }
    }
}

#[test]
fn offer() {
    let mut book = book();
    book.given = Book::MOST_NUMBERS;
    book.units[0].figures[5].volume = 1;
    for number in 1..=8 {
        let amounts = day(&[(7, 1)]);
        book.offers.push(Offer { number, unit: 2, partner: 0, price: 5, taken: 0, amounts });
    }
    assert!(sound(&book));
    let long = vec![1; 25];
    let large = day(&[(0, 4_000_000_000), (1, 1)]);
    let over_hour = day(&[(0, 4), (9, 11)]);
    assert_eq!(book.offer(4, 9, 0, &long), Err(6));
    assert_eq!(book.offer(1, 9, 0, &long), Err(6));
    assert_eq!(book.offer(0, 3, 0, &long), Err(6));
    assert_eq!(book.offer(1, 3, 0, &long), Err(8));
    assert_eq!(book.offer(1, 3, 10, &long), Err(8));
    assert_eq!(book.offer(1, 3, 1, &long), Err(9));
    assert_eq!(book.offer(1, 3, 1, &[1; 23]), Err(9));
    assert_eq!(book.offer(1, 3, 1, &[]), Err(9));
    assert_eq!(book.offer(1, 3, 1, &[0; 24]), Err(9));
    assert_eq!(book.offer(1, 3, 1, &large), Err(9));
    assert_eq!(book.offer(1, 3, 1, &[u64::MAX; 24]), Err(9));
    assert_eq!(book.offer(1, 3, 1, &over_hour), Err(12));
    assert_eq!(book.offer(1, 0, 1, &over_hour), Err(17));
    book.offers.remove(3);
    assert_eq!(book.offer(1, 0, 1, &over_hour), Err(18));
    book.given -= 1;
    assert_eq!(book.offer(1, 0, 1, &over_hour), Err(19));
    assert_eq!(book.offer(1, 0, 1, &day(&[(0, 4), (9, 3)])), Err(20));
    assert_eq!(book.offer(1, 0, 1, &day(&[(0, 4), (9, 2)])), Err(21));
    assert_eq!(book.offer(1, 0, 1, &day(&[(0, 4), (9, 1)])), Ok(Answer::of(65_535)));
    assert!(sound(&book));
    assert_eq!(book.offers.len(), 8);
}

#[test]
fn take() {
    let mut book = book();
    book.units[0].figures[5].volume = 1;
    book.given = 1;
    let amounts = day(&[(0, 11), (1, 11)]);
    book.offers.push(Offer { number: 1, unit: 2, partner: 0, price: 5, taken: 0, amounts });
    let before = book.clone();
    let lent = ROWS_LENT;
    assert_eq!(book.take(4, 2, 0, lent - 1), Err(6));
    assert_eq!(book.take(2, 2, 0, lent - 1), Err(7));
    assert_eq!(book.take(2, 2, 0, lent), Err(9));
    assert_eq!(book.take(2, 2, 4_000_000_001, lent), Err(9));
    assert_eq!(book.take(2, 2, 4_000_000_000, lent), Err(11));
    assert_eq!(book.take(2, 1, 4_000_000_000, lent), Err(12));
    assert_eq!(book.take(2, 1, 22, lent), Err(12));
    assert_eq!(book.take(1, 1, 23, lent), Err(12));
    assert_eq!(book.take(1, 1, 22, lent), Err(19));
    assert_eq!(book.take(1, 1, 8, lent), Err(20));
    assert_eq!(book.take(1, 1, 6, lent), Err(21));
    assert_eq!(book, before);
    assert_eq!(book.take(1, 1, 5, lent).unwrap().rows.len(), 2);
    assert!(sound(&book));
    // A bilateral offer: by its partner alone, for exactly its total.
    assert_eq!(book.offer(2, 1, 5, &day(&[(0, 1), (1, 1)])), Ok(Answer::of(2)));
    assert_eq!(book.take(3, 2, 2, lent), Err(12));
    assert_eq!(book.take(2, 2, 2, lent), Err(12));
    assert_eq!(book.take(1, 2, 1, lent), Err(12));
    assert_eq!(book.take(1, 2, 3, lent), Err(12));
    assert_eq!(book.take(1, 2, 2, lent), Err(20));
}

#[test]
fn withdraw_and_cancel() {
    let mut book = book();
    book.given = 2;
    let amounts = day(&[(0, 2)]);
    book.offers.push(Offer { number: 1, unit: 2, partner: 0, price: 5, taken: 1, amounts });
    book.orders.extend(sells(2, 2));
    assert_eq!(book.withdraw(4, 3), Err(6));
    assert_eq!(book.withdraw(3, 3), Err(11));
    assert_eq!(book.withdraw(2, 2), Err(11));
    assert_eq!(book.withdraw(3, 1), Err(11));
    assert_eq!(book.withdraw(2, 1), Err(13));
    book.offers[0].taken = 0;
    assert_eq!(book.withdraw(2, 1), Ok(Answer::of(0)));
    assert_eq!(book.cancel(4, 3), Err(6));
    assert_eq!(book.cancel(2, 3), Err(11));
    assert_eq!(book.cancel(2, 1), Err(11));
    assert_eq!(book.cancel(3, 2), Err(11));
    assert_eq!(book.cancel(2, 2), Ok(Answer::of(0)));
    assert!(book.offers.is_empty() && book.orders.is_empty());
}

#[test]
fn opening_and_enrol() {
    let mut book = Book::blank();
    assert_eq!(book.open(true, 0, 0, 9), Err(2));
    assert_eq!(book.open(true, 32, 0, 9), Err(2));
    assert_eq!(book.open(true, 1, 5, 4), Err(1));
    assert_eq!(book.open(true, 31, 0, 9), Err(1));
    assert_eq!(book.open(false, 0, 0, 9), Err(2));
    assert_eq!(book.open(false, 32, 0, 9), Err(2));
    assert_eq!(book.open(false, 1, 5, 4), Err(2));
    assert_eq!(book.open(false, 1, 0, 10_000_001), Err(2));
    assert_eq!(book, Book::blank());
    assert_eq!(book.open(false, 31, 10_000_000, 10_000_000), Ok(Answer::of(0)));
    assert_eq!(book.phase, CALL);
    assert_eq!(book.enrol(0, 0, 0), Err(3));
    assert_eq!(book.enrol(5, 0, 0), Err(3));
    assert_eq!(book.enrol(1, 0, 0), Err(4));
    assert_eq!(book.enrol(1, 5_000_001, 0), Err(4));
    assert_eq!(book.enrol(1, 1, 4_000_000_001), Err(4));
    for number in 1..=64 {
        assert_eq!(book.enrol(1 + number % 4, 5_000_000, 4_000_000_000), Ok(Answer::of(number)));
    }
    assert_eq!(book.enrol(5, 1, 0), Err(3));
    assert_eq!(book.enrol(2, 0, 0), Err(4));
    assert_eq!(book.enrol(2, 1, 0), Err(5));
    assert!(sound(&book));
}

#[test]
fn clear_and_close() {
    let mut book = book();
    assert_eq!(book.clear(ROWS_LENT - 1), Err(7));
    assert_eq!(book.clear(ROWS_LENT), Ok(Answer::of(0)));
    assert_eq!(book.clear(0), Err(7));
    assert_eq!(book.clear(u64::MAX), Err(14));
    assert_eq!(book.close(), Ok(Answer::of(0)));
    assert_eq!(book.clear(u64::MAX), Ok(Answer::of(0)));
}

#[test]
fn curve() {
    let book = book();
    assert_eq!(book.curve(0, 9, 0), Err(6));
    assert_eq!(book.curve(4, 9, 0), Err(6));
    assert_eq!(book.curve(1, 1, POINTS_LENT - 1), Err(7));
    assert_eq!(book.curve(1, 1, POINTS_LENT), Err(10));
    assert_eq!(book.curve(1, u64::MAX, POINTS_LENT), Err(10));
    assert_eq!(book.curve(3, 0, POINTS_LENT), Ok([0; 48]));
}

#[test]
fn sharing_directly() {
    let mut lent = [77; 3];
    assert_eq!(share(0, &[1, 1], &mut lent[..1]), 7);
    assert_eq!(share(0, &[1, 1], &mut lent), 9);
    assert_eq!(share(3, &[1, 1], &mut lent), 9);
    assert_eq!(share(1, &[], &mut []), 9);
    assert_eq!(share(0, &[], &mut lent), 9);
    assert_eq!(share(1, &[4_000_000_000, 1], &mut lent), 9);
    assert_eq!(share(1, &[u64::MAX, 2], &mut lent), 9);
    assert_eq!(share(1, &[u64::MAX, u64::MAX, 3], &mut lent), 9);
    assert_eq!(lent, [77; 3]);
    assert_eq!(share(1, &[1, 1], &mut lent), 0);
    assert_eq!(lent, [1, 0, 77]);
    assert_eq!(share(4_000_000_000, &[0, 4_000_000_000, 0], &mut lent), 0);
    assert_eq!(lent, [0, 4_000_000_000, 0]);
    assert_eq!(share(3_999_999_999, &[1, 3_999_999_999], &mut lent), 0);
    assert_eq!(lent, [1, 3_999_999_998, 0]);
    let mut many = vec![0; 1_000];
    assert_eq!(share(1_000, &vec![1; 1_000], &mut many), 0);
    assert_eq!(many, vec![1; 1_000]);
}

#[test]
fn limits_directly() {
    assert_eq!(limits(0, 0, 0, 0, 99), Err(2));
    assert_eq!(limits(32, 0, 0, 0, 99), Err(2));
    assert_eq!(limits(1, 0, 0, 0, 99), Err(3));
    assert_eq!(limits(1, 5, 0, 0, 99), Err(3));
    assert_eq!(limits(1, 4, 0, 0, 99), Err(4));
    assert_eq!(limits(1, 3, 1, 4_000_000_001, 99), Err(4));
    assert_eq!(limits(1, 3, 5_000_001, 0, 99), Err(4));
    assert_eq!(limits(1, 3, 1, 0, 24), Err(10));
    assert_eq!(limits(u64::MAX, u64::MAX, u64::MAX, u64::MAX, u64::MAX), Err(2));
    assert_eq!(limits(31, 4, 1, 0, u64::MAX), Err(10));
    assert_eq!(limits(1, 2, 1, 0, 0), Ok([1, 24, 28]));
    assert_eq!(limits(31, 2, 5_000_000, 0, 743), Ok([5_000_000, 3_720_000_000, 4_464_000_000]));
    assert_eq!(limits(31, 3, 5_000_000, 0, 743), Ok([5_000_000, 3_720_000_000, 3_720_000_000]));
    assert_eq!(limits(2, 1, 7, 0, 24 + 5), Ok([0, 140, 168]));
    assert_eq!(limits(2, 1, 7, 0, 24 + 6), Ok([7, 140, 168]));
    assert_eq!(limits(2, 1, 7, 0, 24 + 19), Ok([7, 140, 168]));
    assert_eq!(limits(2, 1, 7, 0, 24 + 20), Ok([0, 140, 168]));
    assert_eq!(limits(1, 4, 10, 239, 0), Ok([10, 239, 239]));
    assert_eq!(limits(1, 4, 10, 241, 0), Ok([10, 240, 240]));
    assert_eq!(limits(1, 4, 10, 0, 0), Ok([10, 0, 0]));
}
