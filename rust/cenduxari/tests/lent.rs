//! The calls on lent memory: each refusal at its place, and what no call may change.

use cenduxari::lent::{self, ROWS_WORDS};
use cenduxari::Refusal;

const SELL: u64 = 0;
const BUY: u64 = 1;
const GUARD: u64 = 0xC0FF_EE00_DEAD_BEEF;

/// Lent memory: a book with guard words past it, and rows with guard words past them.
#[derive(Clone, PartialEq)]
struct Lent {
    book: Vec<u64>,
    rows: Vec<u64>,
}

impl Lent {
    /// A book of these days, with a generator (unit 1) and a wholesale user (unit 2) of 100 kW each.
    fn open(days: u64) -> Lent {
        let words = lent::words(days).unwrap();
        let mut lent = Lent { book: vec![GUARD; words + 9], rows: vec![GUARD; ROWS_WORDS + 9] };
        lent::open(&mut lent.book, days, 100, 1_000).unwrap();
        assert_eq!(lent.enrol(2, 100, 0), Ok(1));
        assert_eq!(lent.enrol(3, 100, 0), Ok(2));
        lent
    }

    fn enrol(&mut self, kind: u64, capacity: u64, asset: u64) -> Result<u64, Refusal> {
        lent::enrol(&mut self.book, kind, capacity, asset)
    }

    fn order(
        &mut self,
        unit: u64,
        direction: u64,
        period: u64,
        price: u64,
        quantity: u64,
    ) -> Result<(u64, usize), Refusal> {
        let Lent { book, rows } = self;
        lent::order(book, unit, direction, period, price, quantity, rows)
    }

    fn offer(&mut self, unit: u64, partner: u64, amounts: &[u64]) -> Result<u64, Refusal> {
        lent::offer(&mut self.book, unit, partner, 500, amounts)
    }

    fn take(&mut self, unit: u64, number: u64, quantity: u64) -> Result<usize, Refusal> {
        lent::take(&mut self.book, unit, number, quantity, &mut self.rows)
    }

    /// Both units trade this quantity in these periods, by clearing.
    fn trade(&mut self, periods: std::ops::Range<u64>, quantity: u64) {
        for period in periods {
            self.order(1, SELL, period, 500, quantity).unwrap();
            self.order(2, BUY, period, 500, quantity).unwrap();
        }
        lent::clear(&mut self.book, &mut self.rows).unwrap();
    }

    /// The call is refused by this number, and book and rows stand as before.
    fn refuses<T>(&mut self, number: u64, call: impl Fn(&mut Lent) -> Result<T, Refusal>) {
        let before = self.clone();
        let refusal = call(self).err().map_or(0, Refusal::number);
        assert_eq!(refusal, number);
        assert!(*self == before, "{number}");
    }
}

/// One kWh in an hour of a day.
fn one_in(hour: usize) -> [u64; 24] {
    let mut amounts = [0; 24];
    amounts[hour] = 1;
    amounts
}

#[test]
fn the_length_of_a_book() {
    assert_eq!((lent::words(0), lent::words(32), lent::words(u64::MAX)), (None, None, None));
    for days in 1..=31 {
        let words = lent::words(days).unwrap();
        assert!(words * 8 <= 262_144 * (days as usize + 1));
        let mut book = vec![GUARD; words];
        assert_eq!(lent::open(&mut book[1..], days, 0, 0), Err(Refusal::UnsoundBook));
        assert!(book.iter().all(|word| *word == GUARD));
        assert_eq!(lent::open(&mut book, days, 0, 0), Ok(()));
        assert_eq!(lent::close(&mut book), Ok(()));
        assert_eq!(lent::close(&mut book[..words - 1]), Err(Refusal::UnsoundBook));
    }
}

#[test]
fn opening() {
    let mut lent = Lent::open(1);
    for (days, floor, ceiling) in [(0, 0, 0), (32, 0, 0), (1, 2, 1), (1, 0, 10_000_001)] {
        lent.refuses(2, |lent| lent::open(&mut lent.book, days, floor, ceiling));
    }
    lent.refuses(1, |lent| lent::open(&mut lent.book, 2, 2, 1));
    assert_eq!(lent::open(&mut lent.book, 1, 10_000_000, 10_000_000), Ok(()));
}

#[test]
fn memory_that_holds_no_sound_book() {
    let mut lent = Lent::open(1);
    lent.book.iter_mut().for_each(|word| *word = GUARD);
    lent.refuses(1, |lent| lent.enrol(9, 0, 0));
    lent.refuses(1, |lent| lent.offer(0, 0, &[]));
    lent.refuses(1, |lent| lent::take(&mut lent.book, 0, 0, 0, &mut []));
    lent.refuses(1, |lent| lent::withdraw(&mut lent.book, 0, 0));
    lent.refuses(1, |lent| lent::order(&mut lent.book, 0, 0, 0, 0, 0, &mut []));
    lent.refuses(1, |lent| lent::cancel(&mut lent.book, 0, 0));
    lent.refuses(1, |lent| lent::clear(&mut lent.book, &mut []));
    lent.refuses(1, |lent| lent::close(&mut lent.book));
    lent.refuses(1, |lent| lent::curve(&lent.book, 0, 0, &mut []));
    lent.refuses(1, |_| lent::close(&mut []));
}

#[test]
fn enrolling() {
    let mut lent = Lent::open(1);
    for kind in [0, 5, u64::MAX] {
        lent.refuses(3, |lent| lent.enrol(kind, 0, 0));
    }
    for (capacity, asset) in [(0, 0), (5_000_001, 0), (1, 4_000_000_001)] {
        lent.refuses(4, |lent| lent.enrol(4, capacity, asset));
    }
    for unit in 3..=64 {
        assert_eq!(lent.enrol(4, 5_000_000, 4_000_000_000), Ok(unit));
    }
    lent.refuses(5, |lent| lent.enrol(1, 1, 0));
}

#[test]
fn names_rows_prices_energy_and_periods() {
    let mut lent = Lent::open(1);
    for unit in [0, 3, u64::MAX] {
        lent.refuses(6, |lent| lent::order(&mut lent.book, unit, 2, 24, 0, 0, &mut []));
        lent.refuses(6, |lent| lent.offer(unit, 0, &[]));
        lent.refuses(6, |lent| lent::curve(&lent.book, unit, 1, &mut []));
    }
    lent.refuses(6, |lent| lent.offer(1, 3, &[]));
    lent.refuses(7, |lent| {
        lent::order(&mut lent.book, 1, 2, 24, 0, 0, &mut lent.rows[..ROWS_WORDS - 1])
    });
    lent.refuses(7, |lent| lent::clear(&mut lent.book, &mut lent.rows[..ROWS_WORDS - 1]));
    lent.refuses(7, |lent| lent::curve(&lent.book, 1, 1, &mut lent.rows[..47]));
    for price in [99, 1_001] {
        lent.refuses(8, |lent| lent.order(1, 2, 24, price, 0));
        lent.refuses(8, |lent| lent::offer(&mut lent.book, 1, 0, price, &[]));
    }
    for quantity in [0, 4_000_000_001, u64::MAX] {
        lent.refuses(9, |lent| lent.order(1, 2, 24, 500, quantity));
        lent.refuses(9, |lent| lent.offer(2, 1, &[quantity; 24]));
    }
    lent.refuses(9, |lent| lent.offer(2, 1, &[1; 23]));
    lent.refuses(9, |lent| lent.offer(2, 1, &[1; 25]));
    lent.refuses(10, |lent| lent.order(1, 2, 24, 500, 101));
    lent.refuses(10, |lent| lent::curve(&lent.book, 1, 1, &mut lent.rows));
}

#[test]
fn numbers_and_parties() {
    let mut lent = Lent::open(1);
    assert_eq!(lent.order(1, SELL, 0, 500, 1), Ok((1, 0)));
    assert_eq!(lent.offer(2, 0, &one_in(0)), Ok(2));
    for number in [0, 2, 3, u64::MAX] {
        lent.refuses(11, |lent| lent::cancel(&mut lent.book, 1, number));
    }
    for number in [0, 1, 3, u64::MAX] {
        lent.refuses(11, |lent| lent::withdraw(&mut lent.book, 2, number));
    }
    lent.refuses(11, |lent| lent::cancel(&mut lent.book, 2, 1));
    lent.refuses(11, |lent| lent::withdraw(&mut lent.book, 1, 2));
    lent.refuses(12, |lent| lent.order(1, 2, 0, 500, 101));
    lent.refuses(12, |lent| lent.offer(2, 1, &one_in(0)));
    lent.refuses(12, |lent| lent.offer(1, 1, &one_in(0)));
    assert_eq!(lent::cancel(&mut lent.book, 1, 1), Ok(()));
    assert_eq!(lent::withdraw(&mut lent.book, 2, 2), Ok(()));
}

#[test]
fn taking() {
    let mut lent = Lent::open(1);
    assert_eq!(lent.enrol(4, 100, 5), Ok(3));
    let mut amounts = [0; 24];
    amounts[7..10].fill(3);
    assert_eq!(lent.offer(1, 0, &amounts), Ok(1));
    assert_eq!(lent.offer(1, 2, &amounts), Ok(2));
    lent.refuses(6, |lent| lent::take(&mut lent.book, 4, 9, 0, &mut []));
    lent.refuses(7, |lent| lent::take(&mut lent.book, 2, 9, 0, &mut lent.rows[..ROWS_WORDS - 1]));
    lent.refuses(9, |lent| lent.take(2, 9, 0));
    lent.refuses(9, |lent| lent.take(2, 9, 4_000_000_001));
    lent.refuses(11, |lent| lent.take(2, 9, 1));
    lent.refuses(12, |lent| lent.take(1, 1, 1));
    lent.refuses(12, |lent| lent.take(2, 1, 10));
    lent.refuses(12, |lent| lent.take(3, 2, 9));
    lent.refuses(12, |lent| lent.take(2, 2, 8));
    lent.refuses(20, |lent| lent.take(3, 1, 6));
    // A listing is shared: 4 over 3, 3, 3, then 2 over 1, 2, 2.
    assert_eq!(lent.take(2, 1, 4), Ok(3));
    let rows = [2, 7, 1, 2, 2, 500, 2, 8, 1, 2, 1, 500, 2, 9, 1, 2, 1, 500];
    assert_eq!(lent.rows[..18], rows);
    assert!(lent.rows[18..].iter().all(|word| *word == GUARD));
    assert_eq!(lent.take(2, 1, 2), Ok(2));
    assert_eq!(lent.rows[..12], [2, 8, 1, 2, 1, 500, 2, 9, 1, 2, 1, 500]);
    assert_eq!(lent.rows[12..18], rows[12..]);
    lent.refuses(13, |lent| lent::withdraw(&mut lent.book, 1, 1));
    // The rest of it, and a bilateral offer whole: both are gone.
    assert_eq!(lent.take(3, 1, 3), Ok(3));
    lent.refuses(11, |lent| lent.take(2, 1, 1));
    assert_eq!(lent.take(2, 2, 9), Ok(3));
    assert_eq!(lent.rows[..6], [1, 7, 1, 2, 3, 500]);
    lent.refuses(11, |lent| lent.take(2, 2, 9));
    assert!(lent.book[lent::words(1).unwrap()..].iter().all(|word| *word == GUARD));
}

#[test]
fn states_days_and_tables() {
    let mut lent = Lent::open(31);
    assert_eq!(lent.order(1, SELL, 0, 500, 1), Ok((1, 0)));
    lent.refuses(15, |lent| lent.order(1, BUY, 0, 500, 101));
    assert_eq!(lent.order(1, SELL, 0, 500, 1), Ok((2, 0)));
    lent.refuses(16, |lent| lent.order(1, SELL, 0, 500, 101));
    let mut amounts = vec![0; 744];
    amounts[743] = 1;
    for number in 3..=10 {
        assert_eq!(lent.offer(1, 2, &amounts), Ok(number));
    }
    amounts[743] = 101;
    lent.refuses(17, |lent| lent.offer(1, 2, &amounts));
    for period in 1..=254 {
        assert_eq!(lent.order(1, SELL, period, 500, 1), Ok((period + 10, 0)));
    }
    lent.refuses(17, |lent| lent.order(2, BUY, 255, 500, 101));
    assert_eq!(lent::clear(&mut lent.book, &mut lent.rows), Ok(0));
    lent.refuses(14, |lent| lent::clear(&mut lent.book, &mut lent.rows));
    // With 256 open an order passes that trades whole, and none with a rest, though its matches would free places.
    lent.refuses(17, |lent| lent.order(2, BUY, 0, 500, 3));
    lent.refuses(17, |lent| lent.order(2, BUY, 0, 499, 1));
    assert_eq!(lent.order(2, BUY, 0, 500, 1), Ok((265, 1)));
    assert_eq!(lent.order(1, SELL, 255, 500, 1), Ok((266, 0)));
    lent.refuses(17, |lent| lent.order(1, SELL, 255, 500, 101));
    // Freed places serve again.
    assert_eq!(lent::cancel(&mut lent.book, 1, 266), Ok(()));
    assert_eq!(lent.order(2, BUY, 0, 500, 2), Ok((267, 1)));
}

#[test]
fn numbers_of_a_day_run_out() {
    let mut lent = Lent::open(1);
    for number in 1..=65_535 {
        assert_eq!(lent.order(1, SELL, 0, 500, 1), Ok((number, 0)));
        assert_eq!(lent::cancel(&mut lent.book, 1, number), Ok(()));
    }
    lent.refuses(18, |lent| lent.order(1, SELL, 0, 500, 101));
    lent.refuses(18, |lent| lent.offer(1, 2, &[101; 24]));
    assert_eq!(lent::close(&mut lent.book), Ok(()));
    assert_eq!(lent.order(1, SELL, 0, 500, 1), Ok((1, 0)));
}

#[test]
fn limits_hold() {
    let mut lent = Lent::open(1);
    lent.refuses(19, |lent| lent.order(1, SELL, 0, 500, 101));
    lent.refuses(19, |lent| lent.order(2, SELL, 0, 500, 1));
    assert_eq!(lent.enrol(1, 100, 0), Ok(3));
    assert_eq!(lent.enrol(4, 100, 50), Ok(4));
    lent.refuses(20, |lent| lent.order(4, BUY, 0, 500, 51));
    lent.refuses(20, |lent| {
        let mut sun = [0; 24];
        sun[6..17].fill(100);
        lent.offer(3, 0, &sun)
    });
    lent.trade(0..24, 100);
    lent::close(&mut lent.book).unwrap();
    for period in 0..4 {
        lent.order(1, BUY, period, 500, 100).unwrap();
    }
    lent.refuses(21, |lent| lent.order(1, BUY, 4, 500, 81));
    assert_eq!(lent.order(1, BUY, 4, 500, 80), Ok((5, 0)));
    lent.refuses(21, |lent| lent.order(2, SELL, 4, 500, 1));
}

#[test]
fn memory_past_the_book_and_past_the_rows_is_kept() {
    let mut lent = Lent::open(2);
    let words = lent::words(2).unwrap();
    lent.order(1, SELL, 30, 500, 3).unwrap();
    lent.order(1, SELL, 30, 510, 3).unwrap();
    lent.order(2, BUY, 30, 520, 4).unwrap();
    assert!(lent.rows.iter().all(|word| *word == GUARD));
    assert_eq!(lent::clear(&mut lent.book, &mut lent.rows), Ok(2));
    assert_eq!(lent.rows[..12], [3, 30, 1, 2, 3, 515, 3, 30, 1, 2, 1, 515]);
    assert!(lent.rows[12..].iter().all(|word| *word == GUARD));
    lent.rows.fill(GUARD);
    assert_eq!(lent.order(2, BUY, 30, 520, 9), Ok((4, 1)));
    assert_eq!(lent.rows[..6], [4, 30, 1, 2, 2, 510]);
    assert!(lent.rows[6..].iter().all(|word| *word == GUARD));
    let mut points = [GUARD; 50];
    assert_eq!(lent::curve(&lent.book, 2, 1, &mut points), Ok(()));
    assert_eq!((points[12], points[13], points[47]), (3, 3, 0));
    assert_eq!(points[48..], [GUARD; 2]);
    lent.offer(1, 0, &[1; 48]).unwrap();
    lent::close(&mut lent.book).unwrap();
    assert!(lent.book[words..].iter().all(|word| *word == GUARD));
}
