//! Random lists, each accepted trade and each misfit against slow, literal renderings of the rules.
//! Paper: "Sharing an amount", "Limits", and "Order" and "Clear" in "The eight calls".

mod naive;

use second::book::{Book, Offer, Order, Unit, ROLLING};
use second::calls::{Answer, Call, Row, ROWS_LENT};
use second::generate::Generator;
use second::manners::{MANNERS, NUMBERS};
use second::random::Random;
use second::sharing::share;

/// How often each rule was tried.
#[derive(Default, Debug)]
struct Tried {
    clears: u64,
    shared_margins: u64,
    meetings: u64,
    takes: u64,
    fits: u64,
    misfits: u64,
    closes: u64,
}

#[test]
fn trades_and_misfits() {
    let mut tried = Tried::default();
    for manner in &MANNERS[..NUMBERS] {
        for seed in 100..124 {
            let mut generator = Generator::new(seed, manner);
            let mut book = Book::blank();
            for _ in 0..manner.length {
                let call = generator.call(&book);
                let before = book.clone();
                let answer = book.make(&call);
                if before.days > 0 {
                    try_call(&before, &call, &answer, &book, &mut tried);
                }
            }
        }
    }
    assert!(tried.clears > 100 && tried.shared_margins > 20, "{tried:?}");
    assert!(tried.meetings > 500 && tried.takes > 300, "{tried:?}");
    assert!(tried.fits > 5_000 && tried.misfits > 1_000 && tried.closes > 100, "{tried:?}");
}

fn try_call(
    before: &Book,
    call: &Call,
    answer: &Result<Answer, u64>,
    after: &Book,
    tried: &mut Tried,
) {
    try_fit(before, call, answer, tried);
    let Ok(answer) = answer else {
        return;
    };
    let mut expected = before.clone();
    match *call {
        Call::Clear { .. } => {
            let (fills, rows) = naive::clear(&before.orders, before.ceiling.min(1_000));
            if before.ceiling > 1_000 {
                return;
            }
            assert_eq!(answer.rows, rows);
            for (order, &fill) in expected.orders.iter_mut().zip(&fills) {
                if fill > 0 && fill < order.quantity {
                    tried.shared_margins += 1;
                }
                order.quantity -= fill;
            }
            expected.orders.retain(|order| order.quantity > 0);
            expected.phase = ROLLING;
            book_rows(&mut expected, &rows);
            tried.clears += 1;
        }
        Call::Order { unit, direction, period, price, quantity, .. } => {
            expected.given += 1;
            let number = expected.given;
            let mut order = Order { number, unit, direction, period, price, quantity };
            if before.phase == ROLLING {
                let (rows, left) = naive::meet(&mut expected.orders, &order);
                assert_eq!(answer.rows, rows);
                book_rows(&mut expected, &rows);
                order.quantity = left;
                tried.meetings += rows.len() as u64;
            } else {
                assert_eq!(answer.rows, []);
            }
            expected.orders.push(order);
            expected.orders.retain(|order| order.quantity > 0);
        }
        Call::Take { unit, number, quantity, .. } => {
            let place = before.offers.iter().position(|offer| offer.number == number).unwrap();
            let offer = &mut expected.offers[place];
            let parts = naive::parts(quantity, &offer.amounts);
            let way = if offer.partner == 0 { 2 } else { 1 };
            let lists = before.units[offer.unit as usize - 1].kind <= 2;
            let (seller, buyer) = if lists { (offer.unit, unit) } else { (unit, offer.unit) };
            let price = offer.price;
            let mut rows = Vec::new();
            for (period, &quantity) in parts.iter().enumerate() {
                offer.amounts[period] -= quantity;
                if quantity > 0 {
                    let period = period as u64;
                    rows.push(Row { way, period, seller, buyer, quantity, price });
                }
            }
            offer.taken = 1;
            expected.offers.retain(|offer| offer.amounts.iter().any(|&amount| amount > 0));
            assert_eq!(answer.rows, rows);
            book_rows(&mut expected, &rows);
            tried.takes += 1;
        }
        Call::Offer { unit, partner, price, ref amounts } => {
            expected.given += 1;
            let (number, amounts) = (expected.given, amounts.clone());
            expected.offers.push(Offer { number, unit, partner, price, taken: 0, amounts });
        }
        Call::Close => {
            (expected.given, expected.phase) = (0, 0);
            expected.offers = Vec::new();
            expected.orders = Vec::new();
            for figures in expected.units.iter_mut().flat_map(|unit| &mut unit.figures) {
                figures.held = figures.held + figures.raised - figures.lowered;
                (figures.raised, figures.lowered, figures.mark) = (0, 0, 0);
            }
            tried.closes += 1;
        }
        Call::Cancel { unit, number } => {
            expected.orders.retain(|order| order.number != number);
            assert_eq!(expected.orders.len() + 1, before.orders.len());
            assert!(before.orders.iter().any(|order| order.number == number && order.unit == unit));
        }
        Call::Withdraw { unit, number } => {
            expected.offers.retain(|offer| offer.number != number);
            assert_eq!(expected.offers.len() + 1, before.offers.len());
            assert!(before
                .offers
                .iter()
                .any(|offer| offer.number == number && offer.unit == unit && offer.taken == 0));
        }
        Call::Enrol { kind, capacity, asset } => {
            let periods = 24 * before.days as usize;
            expected.units.push(Unit::fresh(kind, capacity, asset, periods));
        }
        Call::Open { .. } | Call::Curve { .. } => {}
    }
    assert!(*after == expected, "{call:?}");
}

/// Books rows: sold by the seller, bought by the buyer.
fn book_rows(book: &mut Book, rows: &[Row]) {
    for row in rows {
        for (name, buys) in [(row.seller, false), (row.buyer, true)] {
            let unit = &mut book.units[name as usize - 1];
            let load = unit.kind >= 3;
            let figures = &mut unit.figures[row.period as usize];
            if load == buys {
                figures.raised += row.quantity;
            } else {
                figures.lowered += row.quantity;
            }
            figures.volume += row.quantity;
            if row.way >= 3 {
                figures.mark |= if buys { 2 } else { 1 };
            }
        }
    }
}

/// A call that met checks 19 to 21 fits just if its declaration, added as open, does.
fn try_fit(before: &Book, call: &Call, answer: &Result<Answer, u64>, tried: &mut Tried) {
    let refusal = match answer {
        Ok(_) => 0,
        Err(refusal) if *refusal >= 19 => *refusal,
        Err(_) => return,
    };
    let mut added = before.clone();
    let number = before.given + 1;
    let name = match *call {
        Call::Order { unit, direction, period, price, quantity, .. } => {
            added.orders.push(Order { number, unit, direction, period, price, quantity });
            unit
        }
        Call::Offer { unit, partner, price, ref amounts } => {
            let amounts = amounts.clone();
            added.offers.push(Offer { number, unit, partner, price, taken: 0, amounts });
            unit
        }
        Call::Take { unit, number: taken, quantity, .. } => {
            let mut offer =
                before.offers.iter().find(|offer| offer.number == taken).unwrap().clone();
            offer.amounts = naive::parts(quantity, &offer.amounts);
            (offer.number, offer.unit) = (number, unit);
            added.offers.push(offer);
            unit
        }
        _ => return,
    };
    assert_eq!(naive::fit(&added, name as usize - 1), refusal, "{call:?}");
    *(if refusal == 0 { &mut tried.fits } else { &mut tried.misfits }) += 1;
}

#[test]
fn sharing() {
    let mut random = Random::new(7);
    let mut shared = 0;
    for _ in 0..20_000 {
        let count = random.below(12) as usize;
        let most = [1, 3, 10, 1_000_000_000, 4_000_000_001][random.below(5) as usize];
        let amounts: Vec<u64> = (0..count).map(|_| random.below(most + 1)).collect();
        let total: u64 = amounts.iter().sum();
        let d = random.below(total + 2);
        let mut lent = vec![77; count + 1];
        let answer = share(d, &amounts, &mut lent);
        if d == 0 || d > total || total > 4_000_000_000 {
            assert_eq!((answer, lent), (9, vec![77; count + 1]));
            continue;
        }
        assert_eq!(answer, 0);
        let mut expected = naive::parts(d, &amounts);
        assert_eq!(expected.iter().sum::<u64>(), d);
        assert!(expected.iter().zip(&amounts).all(|(part, amount)| part <= amount));
        expected.push(77);
        assert_eq!(lent, expected);
        shared += 1;
    }
    assert!(shared > 5_000, "{shared}");
}

/// A book of 32 generators and 32 loads in which so many buys and sells wait in period 7.
fn waiting(buys: u64, sells: u64) -> Book {
    let mut book = Book::blank();
    book.open(false, 1, 0, 9).unwrap();
    for unit in 0..64 {
        book.enrol(if unit < 32 { 2 } else { 3 }, 1_000, 0).unwrap();
    }
    for at in 0..buys + sells {
        let (unit, direction) = if at < buys { (33 + at % 32, 1) } else { (1 + at % 31, 0) };
        let number = at + 1;
        let (price, quantity) = (4 + at % 2, 1 + at % 3);
        book.orders.push(Order { number, unit, direction, period: 7, price, quantity });
    }
    book.given = buys + sells;
    book
}

#[test]
fn the_longest_matches() {
    // 255 sells wait, and a buy of unit 64 meets them all.
    let mut book = waiting(0, 255);
    book.phase = ROLLING;
    let open: u64 = book.orders.iter().map(|order| order.quantity).sum();
    let answer = book.order(64, 1, 7, 9, open + 1, ROWS_LENT).unwrap();
    assert_eq!((answer.number, answer.rows.len()), (256, 255));
    let first_at_5 = answer.rows.iter().position(|row| row.price == 5).unwrap();
    assert_eq!(first_at_5, 128);
    assert_eq!(book.orders.len(), 1);
    assert_eq!((book.orders[0].unit, book.orders[0].quantity), (64, 1));
    // 256 wait both ways, and the clear lays them all against each other.
    let mut book = waiting(128, 128);
    for order in &mut book.orders {
        (order.price, order.quantity) = (5, 1 + order.number % 2);
    }
    let answer = book.clear(ROWS_LENT).unwrap();
    let traded: u64 = answer.rows.iter().map(|row| row.quantity).sum();
    assert_eq!((traded, book.orders.len()), (192, 0));
    assert!(answer.rows.len() >= 128);
}

#[test]
fn clears_of_one_hour() {
    // Many orders of few prices in two hours, most of them at a margin.
    let mut random = Random::new(11);
    let mut longest = 0;
    for _ in 0..2_000 {
        let mut orders = Vec::new();
        for number in 1..=1 + random.below(20) {
            let direction = random.below(2);
            orders.push(Order {
                number,
                unit: 1 + random.below(3) + 3 * direction,
                direction,
                period: random.below(2),
                price: random.below(5),
                quantity: 1 + random.below(6),
            });
        }
        let mut fills = vec![0; orders.len()];
        let mut rows = Vec::new();
        second::clearing::clear(&orders, &mut fills, &mut rows);
        assert_eq!((fills, rows.clone()), naive::clear(&orders, 5), "{orders:?}");
        longest = longest.max(rows.len());
    }
    assert!(longest > 8, "{longest}");
}
