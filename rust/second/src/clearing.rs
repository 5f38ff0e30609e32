//! The rule for clear: volume, marginal prices, price, fills and overlaps of each period.
//! Paper: "Clear" in "The eight calls".

use crate::book::{Order, BUY};
use crate::calls::Row;
use crate::sharing::share;

/// A side of a period: the places of its orders in the list of orders, best first.
type Side<'a> = &'a [usize];

/// Clears all periods of a list of orders that stand by number. `fills` gets each order's fill,
/// `rows` the rows, periods rising.
pub fn clear(orders: &[Order], fills: &mut [u64], rows: &mut Vec<Row>) {
    let laid = lay(orders);
    let mut parts = vec![0; orders.len()];
    let mut start = 0;
    while start < laid.len() {
        let period = orders[laid[start]].period;
        let mut end = start;
        let mut middle = start;
        while end < laid.len() && orders[laid[end]].period == period {
            if orders[laid[end]].direction == BUY {
                middle += 1;
            }
            end += 1;
        }
        let bids = &laid[start..middle];
        let asks = &laid[middle..end];
        clear_period(orders, bids, asks, &mut parts, fills, rows);
        start = end;
    }
}

/// The orders' places by period, bids before asks: bids high to low, asks low to high, equal
/// prices by number.
fn lay(orders: &[Order]) -> Vec<usize> {
    let mut laid: Vec<usize> = (0..orders.len()).collect();
    laid.sort_unstable_by_key(|&place| {
        let order = &orders[place];
        if order.direction == BUY {
            (order.period, 0, u64::MAX - order.price, place)
        } else {
            (order.period, 1, order.price, place)
        }
    });
    laid
}

/// Clears one period.
fn clear_period(
    orders: &[Order],
    bids: Side,
    asks: Side,
    parts: &mut [u64],
    fills: &mut [u64],
    rows: &mut Vec<Row>,
) {
    let volume = volume(orders, bids, asks);
    if volume == 0 {
        return;
    }
    let bid = margin(orders, bids, volume);
    let ask = margin(orders, asks, volume);
    #[allow(clippy::manual_div_ceil)] // As the paper writes it.
    let price = (bid + ask + 1) / 2;
    fill(orders, bids, bid, volume, parts, fills);
    fill(orders, asks, ask, volume, parts, fills);
    overlap(orders, bids, asks, price, fills, rows);
}

/// The largest, over all prices p, of the smaller of bids at p or above and asks at p or below.
/// Bids' prices serve as p: raising p to the next bid's price keeps the bids and loses no ask.
fn volume(orders: &[Order], bids: Side, asks: Side) -> u64 {
    let mut asked: u64 = asks.iter().map(|&place| orders[place].quantity).sum();
    let mut below = asks.len();
    let mut bidden = 0;
    let mut largest = 0;
    for &place in bids {
        bidden += orders[place].quantity;
        while below > 0 && orders[asks[below - 1]].price > orders[place].price {
            below -= 1;
            asked -= orders[asks[below]].quantity;
        }
        largest = largest.max(bidden.min(asked));
    }
    largest
}

/// The price of the order that holds the last kWh of the volume.
fn margin(orders: &[Order], side: Side, volume: u64) -> u64 {
    let mut sum = 0;
    for &place in side {
        sum += orders[place].quantity;
        if sum >= volume {
            return orders[place].price;
        }
    }
    unreachable!("a side holds the volume");
}

/// Better orders fill; those at the margin share what is left to their side.
fn fill(
    orders: &[Order],
    side: Side,
    margin: u64,
    volume: u64,
    parts: &mut [u64],
    fills: &mut [u64],
) {
    let mut left = volume;
    let mut better = 0;
    while orders[side[better]].price != margin {
        fills[side[better]] = orders[side[better]].quantity;
        left -= orders[side[better]].quantity;
        better += 1;
    }
    let mut end = better;
    while end < side.len() && orders[side[end]].price == margin {
        end += 1;
    }
    let marginal = &side[better..end];
    let mut amounts = Vec::with_capacity(marginal.len());
    for &place in marginal {
        amounts.push(orders[place].quantity);
    }
    share(left, &amounts, parts);
    for (&place, &part) in marginal.iter().zip(parts.iter()) {
        fills[place] = part;
    }
}

/// Lays both sides' fills end to end: each overlap is a row.
fn overlap(
    orders: &[Order],
    bids: Side,
    asks: Side,
    price: u64,
    fills: &[u64],
    rows: &mut Vec<Row>,
) {
    let mut bid = 0;
    let mut ask = 0;
    // What is left of the fill of the bid and of the ask in turn.
    let mut buys = fills[bids[bid]];
    let mut sells = fills[asks[ask]];
    loop {
        if buys == 0 {
            bid += 1;
            if bid == bids.len() {
                return;
            }
            buys = fills[bids[bid]];
        } else if sells == 0 {
            ask += 1;
            if ask == asks.len() {
                return;
            }
            sells = fills[asks[ask]];
        } else {
            let quantity = buys.min(sells);
            rows.push(Row {
                way: 3,
                period: orders[bids[bid]].period,
                seller: orders[asks[ask]].unit,
                buyer: orders[bids[bid]].unit,
                quantity,
                price,
            });
            buys -= quantity;
            sells -= quantity;
        }
    }
}
