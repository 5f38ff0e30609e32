//! Deep books: up to 256 orders in few periods, which lists seldom reach, met by one order or cleared.

use crate::books::book;
use crate::engine::{Engine, Trial};
use crate::layout::words;
use crate::lists::Counts;
use crate::random::Random;
use second::book::{Book, Order, BUY, CALL, ROLLING, SELL};
use second::calls::{Call, ROWS_LENT};
use second::sound::sound;

/// Makes one call on each of so many deep books.
pub fn run_deep(engine: Engine, seed: u64, books: u64, counts: &mut Counts) -> Result<(), String> {
    let mut random = Random(seed);
    let mut trial = Trial::new(engine, words(1), &mut random);
    for at in 0..books {
        let (book, call) = deep(&mut random);
        if !sound(&book) {
            continue;
        }
        let before = book.orders.len();
        trial.forge(book);
        let made = trial.call(&call, words(1), &mut random);
        let (told, written) =
            made.map_err(|fault| format!("{fault}: {call:?}; deep book {at} seed {seed}"))?;
        counts.deep += 1;
        counts.count(&call, told, &written, before, &trial.second);
    }
    Ok(())
}

/// A book of a day with orders in few periods, which nearly always is sound, and a call on it: in the call phase mostly a
/// clear, else an order that crosses many.
fn deep(random: &mut Random) -> (Book, Call) {
    let phase = random.of(&[CALL, ROLLING]);
    let (orders, prices) = deep_orders(phase, random);
    let call = match phase {
        CALL if random.to(3) > 0 => Call::Clear { lent: ROWS_LENT },
        _ => meeting(&orders, prices, random),
    };
    (book(1, 64, phase, orders), call)
}

/// Its orders, and over how many thousandths of a yuan their prices go: in the call phase bids and asks may cross.
pub fn deep_orders(phase: u64, random: &mut Random) -> (Vec<Order>, u64) {
    let periods = random.of(&[1, 1, 2, 24]);
    // Few prices, so that many are equal, or many.
    let prices = random.of(&[0, 3, 500]);
    let any = 1 + random.to(255);
    let count = random.of(&[256, 255, 254, any]);
    // In the rolling phase sells lie above buys.
    let above = if phase == CALL { 0 } else { prices + 1 };
    // Each unit's direction in a period, by a bit: all the same, or any.
    let mixed = random.word();
    let directions = if phase == CALL { mixed } else { random.of(&[0, u64::MAX, mixed]) };
    let draw = |number| {
        let (unit, period) = (1 + random.to(61), random.to(periods - 1));
        let direction = directions >> ((unit + 7 * period) % 64) & 1;
        let price = 1_000 + random.to(prices) + if direction == SELL { above } else { 0 };
        Order { number, unit, direction, period, price, quantity: 1 + random.to(29) }
    };
    ((1..=count).map(draw).collect(), prices)
}

/// An order of one of the last two units, which have none, against one of those that wait: for a part of what crosses it,
/// for all of it, for a kWh less or more, or for more than its hour lets.
fn meeting(orders: &[Order], prices: u64, random: &mut Random) -> Call {
    let met = random.of(orders);
    let (unit, direction) = if met.direction == SELL { (64, BUY) } else { (63, SELL) };
    let all = if direction == BUY { 1_000 + 2 * prices + 1 } else { 1_000 };
    let price = random.of(&[met.price, all]);
    let crosses = |order: &&Order| {
        let [bid, ask] = if direction == BUY { [price, order.price] } else { [order.price, price] };
        order.direction != direction && order.period == met.period && bid >= ask
    };
    let open: u64 = orders.iter().filter(crosses).map(|order| order.quantity).sum();
    let some = 1 + random.to(open);
    let quantity = random.of(&[some, open, open, open + 1, open.max(2) - 1, 2_000_000]);
    Call::Order { unit, direction, period: met.period, price, quantity, lent: ROWS_LENT }
}
