//! What market staff want of a clear, judged from the orders before it, its rows and the orders after it.
//! Paper 02, job 10.

use crate::book::{Order, BUY, SELL};
use crate::calls::Row;

/// A bid and an ask, by their places among the orders, matched in an amount.
#[derive(Clone, Copy, Debug)]
pub struct Pair {
    pub bid: usize,
    pub ask: usize,
    pub amount: u64,
}

/// Is this a matching of a period's orders at a price: "any bids at or above it and any asks at or below it matched in any
/// amounts up to their quantities"?
pub fn is_matching(orders: &[Order], period: u64, price: u64, pairs: &[Pair]) -> bool {
    let mut open: Vec<u64> = orders.iter().map(|order| order.quantity).collect();
    pairs.iter().all(|pair| {
        let (bid, ask) = (&orders[pair.bid], &orders[pair.ask]);
        (bid.direction, ask.direction) == (BUY, SELL)
            && (bid.period, ask.period) == (period, period)
            && (ask.price..=bid.price).contains(&price)
            && [pair.bid, pair.ask].into_iter().all(|place| take(&mut open[place], pair.amount))
    })
}

/// What the rows of a period sum to.
pub fn traded(rows: &[Row], period: u64) -> u64 {
    rows.iter().filter(|row| row.period == period).map(|row| row.quantity).sum()
}

/// Does the clear leave nothing that crosses, and does each row fill a bid and an ask that its price lies between?
pub fn judge(before: &[Order], rows: &[Row], after: &[Order]) -> Result<(), &'static str> {
    if cross(after) {
        return Err("a bid and an ask are left that cross");
    }
    if rows.iter().any(|row| rows.iter().any(|other| two_prices(row, other))) {
        return Err("a period has two prices");
    }
    let lost = losses(before, after).ok_or("an order is left that did not stand, or more of it")?;
    let mut sides = [BUY, SELL].map(|direction| Side::new(before, &lost, direction));
    for row in rows {
        for (side, unit) in sides.iter_mut().zip([row.buyer, row.seller]) {
            side.fill(row, unit)?;
        }
    }
    let all = sides.iter_mut().all(|side| side.next().is_none());
    all.then_some(()).ok_or("an order lost what no row fills")
}

/// Do a bid and an ask of one period cross?
fn cross(orders: &[Order]) -> bool {
    let bids = || orders.iter().filter(|order| order.direction == BUY);
    let crosses = |bid: &Order, ask: &Order| bid.period == ask.period && bid.price >= ask.price;
    orders
        .iter()
        .filter(|order| order.direction == SELL)
        .any(|ask| bids().any(|bid| crosses(bid, ask)))
}

fn two_prices(row: &Row, other: &Row) -> bool {
    row.period == other.period && row.price != other.price
}

/// Takes an amount off, if there is as much.
fn take(open: &mut u64, amount: u64) -> bool {
    let rest = open.checked_sub(amount);
    *open = rest.unwrap_or(*open);
    rest.is_some()
}

/// What each order lost; none if one is left that did not stand before with as much or more.
fn losses(before: &[Order], after: &[Order]) -> Option<Vec<u64>> {
    let mut left = after.iter().peekable();
    let mut lost = Vec::new();
    for order in before {
        let rest = match left.next_if(|rest| rest.number == order.number) {
            Some(rest) if *rest == (Order { quantity: rest.quantity, ..*order }) => rest.quantity,
            Some(_) => return None,
            None => 0,
        };
        lost.push(order.quantity.checked_sub(rest)?);
    }
    left.next().is_none().then_some(lost)
}

/// The orders of a direction that lost something, with what rows have still to fill of each: periods rising, the best price
/// first, equal prices by number, as 01 lays them.
struct Side<'a>(Vec<(&'a Order, u64)>);

impl<'a> Side<'a> {
    fn new(orders: &'a [Order], lost: &[u64], direction: u64) -> Side<'a> {
        let lost = orders.iter().zip(lost.iter().copied());
        let mut side: Vec<_> =
            lost.filter(|&(order, lost)| order.direction == direction && lost > 0).collect();
        let best = |price| if direction == BUY { u64::MAX - price } else { price };
        side.sort_by_key(|(order, _)| (order.period, best(order.price), order.number));
        side.reverse();
        Side(side)
    }

    /// The first order of which something has still to be filled.
    fn next(&mut self) -> Option<&mut (&'a Order, u64)> {
        while self.0.last().is_some_and(|&(_, open)| open == 0) {
            self.0.pop();
        }
        self.0.last_mut()
    }

    /// Fills what a row trades of the next order, which must be this unit's.
    fn fill(&mut self, row: &Row, unit: u64) -> Result<(), &'static str> {
        let (order, open) = self.next().ok_or("a row fills no order")?;
        if (order.period, order.unit) != (row.period, unit) || !take(open, row.quantity) {
            return Err("a row fills another order than lost it");
        }
        let bid = order.direction == BUY;
        let [low, high] = if bid { [row.price, order.price] } else { [order.price, row.price] };
        (low <= high).then_some(()).ok_or("a row's price is outside")
    }
}
