//! Sound books of given sizes, for the benchmark and for deep trials.

use second::book::{Book, Figures, Offer, Order, Unit, BUY, CALL, ROLLING, SELL};
use second::calls::{Call, POINTS_LENT, ROWS_LENT};

/// The listing's number; orders follow it.
const LISTING: u64 = 1;

/// A book whose units, generators and loads in turn, hold 1,000 kWh in every period.
pub fn book(days: u64, units: u64, phase: u64, orders: Vec<Order>) -> Book {
    let periods = 24 * days as usize;
    let figures = Figures { held: 1_000, volume: 1_000, ..Figures::default() };
    let unit = |place| Unit {
        kind: 2 + place % 2,
        capacity: 1_000_000,
        asset: 0,
        figures: vec![figures; periods],
    };
    let given = LISTING + orders.len() as u64;
    let units = (0..units).map(unit).collect();
    Book { days, floor: 0, ceiling: 10_000, phase, given, units, offers: Vec::new(), orders }
}

/// A listing of unit 1 with 2 kWh in each period.
fn listing(number: u64, periods: u64) -> Offer {
    let amounts = vec![2; periods as usize];
    Offer { number, unit: 1, partner: 0, price: 5_000, taken: 0, amounts }
}

/// A book in the rolling phase with a listing, and orders over all units and periods that don't cross.
pub fn spread(days: u64, units: u64, orders: u64) -> Book {
    let order = |place| {
        let unit = 1 + place % units;
        let (direction, price) = if unit % 2 == 1 { (SELL, 6_000) } else { (BUY, 4_000) };
        let (number, period) = (LISTING + 1 + place, 7 * place % (24 * days));
        Order { number, unit, direction, period, price: price + 3 * place, quantity: 10 }
    };
    let mut book = book(days, units, ROLLING, (0..orders).map(order).collect());
    book.offers.push(listing(LISTING, book.periods()));
    book
}

/// The same with this many listings, and none of the orders.
pub fn listed(days: u64, units: u64, offers: u64) -> Book {
    let mut book = book(days, units, ROLLING, Vec::new());
    book.given = offers;
    book.offers = (1..=offers).map(|number| listing(number, book.periods())).collect();
    book
}

/// A book of 31 days with a listing of these amounts by period, and the take of three sevenths of it.
pub fn month(units: u64, amount: fn(u64) -> u64) -> (Book, Call) {
    let mut book = listed(31, units, 1);
    let amounts: Vec<u64> = (0..book.periods()).map(amount).collect();
    let quantity = amounts.iter().sum::<u64>() * 3 / 7;
    book.offers[0].amounts = amounts;
    (book, Call::Take { unit: 2, number: LISTING, quantity, lent: ROWS_LENT })
}

/// A book of one day and 64 units in the rolling phase, with so many sells in one period.
pub fn waiting(sells: u64) -> Book {
    let order = |place| {
        let (number, unit, price) =
            (LISTING + 1 + place, 1 + 2 * place % 64, 500 + 37 * place % sells);
        Order { number, unit, direction: SELL, period: 9, price, quantity: 5 }
    };
    book(1, 64, ROLLING, (0..sells).map(order).collect())
}

/// The buy that meets all of them.
pub fn sweep(sells: u64) -> Call {
    let (unit, price, quantity) = (2, 9_000, 5 * sells);
    Call::Order { unit, direction: BUY, period: 9, price, quantity, lent: ROWS_LENT }
}

/// A book of one day and 64 units in the call phase, with bids and asks that cross in so many periods, their prices in
/// no order. More than two of a unit in a period are no calls' work, but sound.
pub fn crossing(orders: u64, periods: u64, one_price: bool) -> Book {
    let steps = (orders / 2).div_ceil(periods);
    let order = |place| {
        let (number, side, step) =
            (LISTING + 1 + place, place % 2, 37 * (place / 2 / periods) % steps);
        let (direction, price) = if side == 0 { (SELL, 500 + step) } else { (BUY, 900 - step) };
        let price = if one_price { 700 } else { price };
        let (unit, period) = (1 + place % 64, place / 2 % periods);
        Order { number, unit, direction, period, price, quantity: 3 + 7 * place % 11 }
    };
    book(1, 64, CALL, (0..orders).map(order).collect())
}

/// A call that is refused after the check of the book: there is no unit 0.
pub fn check_alone() -> Call {
    Call::Curve { unit: 0, day: 0, lent: POINTS_LENT }
}

/// Each call on such a spread book, with the book.
pub fn each_call(days: u64, units: u64, orders: u64) -> Vec<(&'static str, Book, Call)> {
    let spread = spread(days, units, orders);
    let (lent, periods) = (ROWS_LENT, spread.periods());
    let middle = spread.orders.get(orders as usize / 2);
    let (unit, number) = middle.map_or((1, 1), |order| (order.unit, order.number));
    let call_phase = Book { phase: CALL, ..spread.clone() };
    let sale = (SELL, 5, 7_000, 10);
    let (direction, period, price, quantity) = sale;
    let amounts = vec![1; periods as usize];
    [
        ("check alone", check_alone()),
        ("open", Call::Open { short: false, days, floor: 0, ceiling: 9 }),
        ("enrol", Call::Enrol { kind: 2, capacity: 100, asset: 0 }),
        ("offer", Call::Offer { unit: 1, partner: 0, price: 5_000, amounts }),
        ("take", Call::Take { unit: 2.min(units), number: LISTING, quantity: periods, lent }),
        ("withdraw", Call::Withdraw { unit: 1, number: LISTING }),
        ("order", Call::Order { unit: 1, direction, period, price, quantity, lent }),
        ("cancel", Call::Cancel { unit, number }),
        ("clear", Call::Clear { lent }),
        ("close", Call::Close),
        ("curve", Call::Curve { unit: 1, day: days - 1, lent: POINTS_LENT }),
    ]
    .map(|(name, call)| {
        let book = if name == "clear" { &call_phase } else { &spread };
        (name, book.clone(), call)
    })
    .into()
}
