//! Clears of deep books, judged by what market staff want of them (paper 02, job 10), not by the rule for a clear.

use crate::books::book;
use crate::deep::deep_orders;
use crate::engine::Engine;
use crate::layout::{decode, encode, words};
use crate::random::Random;
use second::book::{Order, BUY, CALL, SELL};
use second::calls::{Call, Row, ROWS_LENT};
use second::sound::sound;
use second::staff::{is_matching, judge, traded, Pair};

/// Clears so many books by the engine to try; gives how many rows there were, and how many matchings were tried beside them.
pub fn run_clears(engine: Engine, seed: u64, books: u64) -> Result<[u64; 2], String> {
    let mut random = Random(seed);
    let mut counted = [0; 2];
    for at in 0..books {
        let (orders, _) = deep_orders(CALL, &mut random);
        let before = book(1, 64, CALL, orders);
        if !sound(&before) {
            continue;
        }
        let mut memory: Vec<u64> = (0..words(1)).map(|_| random.word()).collect();
        encode(&before, &mut memory);
        let mut lent = vec![random.word(); ROWS_LENT as usize];
        let told = engine(&Call::Clear { lent: ROWS_LENT }, &mut memory, &mut lent);
        let rows: Vec<Row> = lent.chunks(6).take(told.count as usize).map(row).collect();
        let after = decode(&memory).map_or(Vec::new(), |book| book.orders);
        let found = |fault: &str| format!("{fault}: clear {at} seed {seed}");
        if told.refusal != 0 {
            return Err(found("refused"));
        }
        counted[0] += rows.len() as u64;
        counted[1] += nothing_more(&before.orders, &rows, &mut random).map_err(found)?;
        judge(&before.orders, &rows, &after).map_err(found)?;
    }
    Ok(counted)
}

/// No matching of any period, at any of many prices, trades more than its rows: gives how many were tried.
pub fn nothing_more(
    orders: &[Order],
    rows: &[Row],
    random: &mut Random,
) -> Result<u64, &'static str> {
    let mut tried = 0;
    for period in 0..24 {
        let there: Vec<&Order> = orders.iter().filter(|order| order.period == period).collect();
        for order in &there {
            // Each order's own price, one beside it, and any.
            let beside = random.of(&[order.price - 1, order.price + 1]);
            let any = random.to(10_000);
            for price in [order.price, beside, any] {
                let most = random.of(&[u64::MAX, 1, 9]);
                let pairs = some_matching(orders, [period, price], most, random);
                if !is_matching(orders, period, price, &pairs) {
                    return Err("no matching was drawn");
                }
                tried += 1;
                if pairs.iter().map(|pair| pair.amount).sum::<u64>() > traded(rows, period) {
                    return Err("a matching trades more");
                }
            }
        }
    }
    Ok(tried)
}

/// A matching at a price, bids and asks drawn one by one: the fullest, or in amounts of so much at most.
fn some_matching(
    orders: &[Order],
    [period, price]: [u64; 2],
    most: u64,
    random: &mut Random,
) -> Vec<Pair> {
    let side = |direction| {
        let meets = |order: &Order| {
            let [low, high] =
                if direction == BUY { [price, order.price] } else { [order.price, price] };
            (order.direction, order.period) == (direction, period) && low <= high
        };
        let places = (0..orders.len()).filter(|&place| meets(&orders[place]));
        places.map(|place| (place, orders[place].quantity)).collect::<Vec<_>>()
    };
    let [mut bids, mut asks] = [side(BUY), side(SELL)];
    let mut pairs = Vec::new();
    while !bids.is_empty() && !asks.is_empty() {
        let [at, to] = [bids.len(), asks.len()].map(|count| random.to(count as u64 - 1) as usize);
        let [bid, ask] = [bids[at], asks[to]];
        let amount = bid.1.min(ask.1).min(most);
        pairs.push(Pair { bid: bid.0, ask: ask.0, amount });
        for (side, place) in [(&mut bids, at), (&mut asks, to)] {
            side[place].1 -= amount;
            // What is spent goes, and now and then what is not.
            if side[place].1 == 0 || most < u64::MAX && random.to(3) == 0 {
                side.swap_remove(place);
            }
        }
    }
    pairs
}

fn row(words: &[u64]) -> Row {
    let &[way, period, seller, buyer, quantity, price] = words else { unreachable!() };
    Row { way, period, seller, buyer, quantity, price }
}
