//! Order with its matching, and clear.
//! Papers: "Order" and "Clear" in "The eight calls"; checks 15 and 16; 02, Job 4, for check 17.

use crate::book::{Book, Order, BUY, CALL, ROLLING, SELL};
use crate::calls::{check, energy_in_range, Answer, Row, ROWS_LENT};
use crate::clearing;
use crate::fits::Open;
use crate::sound::sound;

impl Book {
    /// Declares an order; in the rolling phase it meets the opposite ones first.
    pub fn order(
        &mut self,
        unit: u64,
        direction: u64,
        period: u64,
        price: u64,
        quantity: u64,
        lent: u64,
    ) -> Result<Answer, u64> {
        check(sound(self), 1)?;
        check(self.names(unit), 6)?;
        check(lent >= ROWS_LENT, 7)?;
        check(self.price_in_range(price), 8)?;
        check(energy_in_range(quantity), 9)?;
        check(period < self.periods(), 10)?;
        check(direction == SELL || direction == BUY, 12)?;
        let (other, open) = self.open_orders(unit, direction, period);
        let figures = &self.unit(unit).figures[period as usize];
        let marked = figures.marked(if direction == SELL { BUY } else { SELL });
        check(other == 0 && !marked, 15)?;
        check(self.phase == ROLLING || open < 2, 16)?;
        let number = self.given + 1;
        let mut incoming = Order { number, unit, direction, period, price, quantity };
        check(self.orders.len() < Order::MOST || self.trades_whole(&incoming), 17)?;
        check(self.given < Book::MOST_NUMBERS, 18)?;
        let mut open = Open::of(self, unit);
        open.add(self.unit(unit).raises(direction), period as usize, quantity);
        self.fit(unit, &open)?;
        self.given = number;
        let rows = if self.phase == CALL { Vec::new() } else { self.meet(&mut incoming) };
        if incoming.quantity > 0 {
            self.orders.push(incoming);
        }
        Ok(Answer { number, rows })
    }

    /// How many orders the unit has open in the period: in the other direction, and all.
    fn open_orders(&self, unit: u64, direction: u64, period: u64) -> (usize, usize) {
        let mut other = 0;
        let mut open = 0;
        for order in &self.orders {
            if order.unit == unit && order.period == period {
                open += 1;
                if order.direction != direction {
                    other += 1;
                }
            }
        }
        (other, open)
    }

    /// Would nothing of an incoming order wait?
    fn trades_whole(&self, incoming: &Order) -> bool {
        let counterparts = self.counterparts(incoming);
        let met: u64 = counterparts.iter().map(|&place| self.orders[place].quantity).sum();
        self.phase == ROLLING && met >= incoming.quantity
    }

    /// Matches an incoming order with the waiting ones and lessens both.
    fn meet(&mut self, incoming: &mut Order) -> Vec<Row> {
        let mut rows = Vec::new();
        for place in self.counterparts(incoming) {
            if incoming.quantity == 0 {
                break;
            }
            let waiting = &mut self.orders[place];
            let quantity = incoming.quantity.min(waiting.quantity);
            incoming.quantity -= quantity;
            waiting.quantity -= quantity;
            let (seller, buyer) = if incoming.direction == SELL {
                (incoming.unit, waiting.unit)
            } else {
                (waiting.unit, incoming.unit)
            };
            let (period, price) = (waiting.period, waiting.price);
            rows.push(Row { way: 4, period, seller, buyer, quantity, price });
        }
        self.finish(&rows);
        rows
    }

    /// The places of the waiting orders that cross the incoming one: best price first, then lowest
    /// number, which is lowest place.
    fn counterparts(&self, incoming: &Order) -> Vec<usize> {
        let crosses = |waiting: &Order| {
            if incoming.direction == BUY {
                incoming.price >= waiting.price
            } else {
                waiting.price >= incoming.price
            }
        };
        let mut places = Vec::new();
        for (place, waiting) in self.orders.iter().enumerate() {
            if waiting.period == incoming.period
                && waiting.direction != incoming.direction
                && crosses(waiting)
            {
                places.push(place);
            }
        }
        places.sort_unstable_by_key(|&place| {
            let price = self.orders[place].price;
            (if incoming.direction == BUY { price } else { u64::MAX - price }, place)
        });
        places
    }

    /// Clears the call phase; the rolling phase begins.
    pub fn clear(&mut self, lent: u64) -> Result<Answer, u64> {
        check(sound(self), 1)?;
        check(lent >= ROWS_LENT, 7)?;
        check(self.phase == CALL, 14)?;
        let mut rows = Vec::new();
        let mut fills = vec![0; self.orders.len()];
        clearing::clear(&self.orders, &mut fills, &mut rows);
        for (order, fill) in self.orders.iter_mut().zip(fills) {
            order.quantity -= fill;
        }
        self.finish(&rows);
        self.phase = ROLLING;
        Ok(Answer { number: 0, rows })
    }

    /// Books rows of way 3 or 4, marks their units and drops the emptied orders.
    fn finish(&mut self, rows: &[Row]) {
        if rows.is_empty() {
            return;
        }
        for row in rows {
            self.trade(row);
            self.units[row.seller as usize - 1].mark(row.period, SELL);
            self.units[row.buyer as usize - 1].mark(row.period, BUY);
        }
        self.orders.retain(|order| order.quantity > 0);
    }

    /// Books a row with its seller and its buyer.
    pub(crate) fn trade(&mut self, row: &Row) {
        self.units[row.seller as usize - 1].trade(row.period, SELL, row.quantity);
        self.units[row.buyer as usize - 1].trade(row.period, BUY, row.quantity);
    }
}
