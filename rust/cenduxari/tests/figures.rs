//! The paper's figures to check and its transcript, on the engine.

use cenduxari::{limits, share, Book, Direction, Kind, Limits, Refusal, Row, Way};
use Direction::{Buy, Sell};

/// A book of one day with a generator and a wholesale user of 100 kW each.
fn pair() -> (Book, u64, u64) {
    let mut book = Book::open(1, 0, 1_000_000).unwrap();
    let plant = book.enrol(Kind::Generator, 100, 0).unwrap();
    let user = book.enrol(Kind::WholesaleUser, 100, 0).unwrap();
    (book, plant, user)
}

/// The quantity and price of each row.
fn traded(rows: impl Iterator<Item = Row>) -> Vec<(u64, u64)> {
    rows.map(|row| (row.quantity, row.price)).collect()
}

#[test]
fn figure_1() {
    let mut parts = [0; 3];
    share(4, &[3, 3, 3], &mut parts).unwrap();
    assert_eq!(parts, [2, 1, 1]);
    share(2, &[1, 2, 2], &mut parts).unwrap();
    assert_eq!(parts, [0, 1, 1]);
}

#[test]
fn figure_2() {
    let (mut book, plant, user) = pair();
    for (unit, direction, price, quantity) in
        [(user, Buy, 500, 10), (user, Buy, 480, 10), (plant, Sell, 450, 10), (plant, Sell, 470, 4)]
    {
        assert_eq!(book.order(unit, direction, 8, price, quantity).unwrap().rows.len(), 0);
    }
    assert_eq!(traded(book.clear().unwrap()), [(10, 475), (4, 475)]);
}

#[test]
fn figure_3() {
    let (mut book, plant, user) = pair();
    book.order(user, Buy, 8, 481, 1).unwrap();
    book.order(plant, Sell, 8, 470, 1).unwrap();
    assert_eq!(traded(book.clear().unwrap()), [(1, 476)]);
}

#[test]
fn figure_4() {
    let (mut book, plant, user) = pair();
    book.clear().unwrap();
    assert_eq!(book.order(plant, Sell, 8, 460, 5).unwrap().number, 1);
    assert_eq!(book.order(plant, Sell, 8, 455, 5).unwrap().number, 2);
    assert_eq!(traded(book.order(user, Buy, 8, 460, 7).unwrap().rows), [(5, 455), (2, 460)]);
}

#[test]
fn figure_5() {
    assert_eq!(limits(1, 2, 100, 0, 0), Ok(Limits { hour: 100, term: 2_400, volume: 2_880 }));
    let (mut book, plant, _) = pair();
    assert_eq!(book.order(plant, Sell, 0, 5, 101).unwrap_err(), Refusal::HourLimit);
    assert_eq!(book.order(plant, Sell, 0, 5, 100).unwrap().number, 1);
}

#[test]
fn figure_6() {
    let mut book = Book::open(1, 0, 1_000_000).unwrap();
    let solar = book.enrol(Kind::Solar, 100, 0).unwrap();
    for hour in [5, 20] {
        assert_eq!(book.order(solar, Sell, hour, 5, 1).unwrap_err(), Refusal::HourLimit);
    }
    for hour in [6, 19].into_iter().chain(7..15) {
        book.order(solar, Sell, hour, 5, 100).unwrap();
    }
    assert_eq!(book.order(solar, Sell, 15, 5, 1).unwrap_err(), Refusal::TermLimit);
}

#[test]
fn figure_7() {
    let (mut book, plant, user) = pair();
    let mut amounts = [0; 24];
    amounts[8] = 100;
    let listing = book.offer(plant, None, 5, &amounts).unwrap();
    let (way, period, quantity, price) = (Way::Listing, 8, 100, 5);
    let row = Row { way, period, seller: plant, buyer: user, quantity, price };
    assert_eq!(book.take(user, listing, 100).unwrap().collect::<Vec<Row>>(), [row]);
    assert_eq!(book.order(plant, Buy, 8, 5, 1).unwrap_err(), Refusal::HourLimit);
    book.close().unwrap();
    assert_eq!(book.order(plant, Buy, 8, 5, 100).unwrap().number, 1);
}

#[test]
fn figure_8() {
    let (mut book, plant, user) = pair();
    for (period, quantity) in [(0, 7), (1, 1)] {
        book.order(plant, Sell, period, 5, quantity).unwrap();
        book.order(user, Buy, period, 5, quantity).unwrap();
    }
    assert_eq!(book.clear().unwrap().len(), 2);
    for unit in [plant, user] {
        let curve = book.curve(unit, 0).unwrap();
        assert_eq!(curve.points[..6], [3, 4, 0, 1, 0, 0]);
        assert_eq!((curve.net(0), curve.net(1), curve.net(2), curve.total()), (7, 1, 0, 8));
    }
}

#[test]
fn the_transcript() {
    let (mut book, plant, user) = pair();
    assert_eq!((plant, user), (1, 2));
    assert_eq!(book.clear().unwrap().len(), 0);
    let sold = book.order(plant, Sell, 8, 455_000, 5).unwrap();
    assert_eq!((sold.number, sold.rows.len()), (1, 0));
    let bought = book.order(user, Buy, 8, 460_000, 7).unwrap();
    assert_eq!(bought.number, 2);
    let (way, period, quantity, price) = (Way::Rolling, 8, 5, 455_000);
    let row = Row { way, period, seller: plant, buyer: user, quantity, price };
    assert_eq!(bought.rows.collect::<Vec<Row>>(), [row]);
    assert_eq!(book.close(), Ok(()));
}
