//! The tally, fed with the arguments and answers of calls alone, and demand 3 against a book.
//! Paper: "The tally".

use crate::book::{Book, Order, SELL};
use crate::calls::{Answer, Call, Row};
use crate::clearing;
use crate::limits::{hour_limit, is_generator, term_limit, volume_limit};

/// The tally of a list of calls.
#[derive(Clone, Debug, Default, PartialEq, Eq)]
pub struct Tally {
    /// The opening's days; 0 before it.
    pub days: u64,
    pub units: Vec<Tallied>,
    pub offers: Vec<OpenOffer>,
    /// Open orders, numbers rising.
    pub orders: Vec<Order>,
}

/// A unit with what it sold and bought in each period.
#[derive(Clone, Debug, PartialEq, Eq)]
pub struct Tallied {
    pub kind: u64,
    pub capacity: u64,
    pub asset: u64,
    pub sold: Vec<u64>,
    pub bought: Vec<u64>,
}

/// An offer's amounts, open under its number.
#[derive(Clone, Debug, PartialEq, Eq)]
pub struct OpenOffer {
    pub number: u64,
    pub unit: u64,
    pub amounts: Vec<u64>,
}

impl Tallied {
    /// Net: a generator's is sold less bought, a load's bought less sold.
    pub fn net(&self, period: usize) -> i128 {
        let sold = self.sold[period] as i128;
        let bought = self.bought[period] as i128;
        if is_generator(self.kind) {
            sold - bought
        } else {
            bought - sold
        }
    }

    /// Bought and sold.
    pub fn volume(&self, period: usize) -> i128 {
        self.sold[period] as i128 + self.bought[period] as i128
    }
}

impl Tally {
    /// Adds a call and its answer. An answer that the tally can't follow is an error.
    pub fn feed(&mut self, call: &Call, answer: &Result<Answer, u64>) -> Result<(), String> {
        let Ok(answer) = answer else {
            return Ok(());
        };
        for row in &answer.rows {
            self.row(row)?;
        }
        match call {
            Call::Open { days, .. } => {
                *self = Tally { days: *days, ..Tally::default() };
            }
            Call::Enrol { kind, capacity, asset } => self.enrol(*kind, *capacity, *asset),
            Call::Offer { unit, amounts, .. } => {
                let (number, unit, amounts) = (answer.number, *unit, amounts.clone());
                self.offers.push(OpenOffer { number, unit, amounts });
            }
            Call::Take { number, .. } => self.take(*number, &answer.rows)?,
            Call::Withdraw { number, .. } => self.offers.retain(|offer| offer.number != *number),
            Call::Order { unit, direction, period, price, quantity, .. } => {
                let (unit, direction, period) = (*unit, *direction, *period);
                let (number, price, quantity) = (answer.number, *price, *quantity);
                let order = Order { number, unit, direction, period, price, quantity };
                self.order(order, &answer.rows)?;
            }
            Call::Cancel { number, .. } => self.orders.retain(|order| order.number != *number),
            Call::Clear { .. } => self.clear(),
            Call::Close => {
                self.offers.clear();
                self.orders.clear();
            }
            Call::Curve { .. } => {}
        }
        Ok(())
    }

    /// The next unit, with the fields given.
    fn enrol(&mut self, kind: u64, capacity: u64, asset: u64) {
        let none = vec![0; 24 * self.days as usize];
        self.units.push(Tallied { kind, capacity, asset, sold: none.clone(), bought: none });
    }

    /// Sold by its seller and bought by its buyer in its period.
    fn row(&mut self, row: &Row) -> Result<(), String> {
        let units = self.units.len() as u64;
        let named = |unit| (1..=units).contains(&unit);
        if !named(row.seller) || !named(row.buyer) || row.period >= 24 * self.days {
            return Err(format!("row names no unit or period: {row:?}"));
        }
        let period = row.period as usize;
        self.units[row.seller as usize - 1].sold[period] += row.quantity;
        self.units[row.buyer as usize - 1].bought[period] += row.quantity;
        Ok(())
    }

    /// Each row lessens the named offer in its period.
    fn take(&mut self, number: u64, rows: &[Row]) -> Result<(), String> {
        let place = self.offers.iter().position(|offer| offer.number == number);
        let place = place.ok_or_else(|| format!("take of no open offer: {number}"))?;
        let offer = &mut self.offers[place];
        for row in rows {
            let amount = &mut offer.amounts[row.period as usize];
            let left = amount.checked_sub(row.quantity);
            *amount = left.ok_or_else(|| format!("row takes more than is open: {row:?}"))?;
        }
        if offer.amounts.iter().all(|&amount| amount == 0) {
            self.offers.remove(place);
        }
        Ok(())
    }

    /// Each row lessens the other unit's open order of its period and price, lowest number first;
    /// what is left of the quantity is open under its number.
    fn order(&mut self, mut order: Order, rows: &[Row]) -> Result<(), String> {
        for row in rows {
            let other = if order.direction == SELL { row.buyer } else { row.seller };
            let mut left = row.quantity;
            for waiting in &mut self.orders {
                let meant = waiting.unit == other
                    && waiting.period == row.period
                    && waiting.price == row.price;
                if meant {
                    let part = left.min(waiting.quantity);
                    waiting.quantity -= part;
                    left -= part;
                }
            }
            if left > 0 || row.quantity > order.quantity {
                return Err(format!("row matches more than is open: {row:?}"));
            }
            order.quantity -= row.quantity;
        }
        if !rows.is_empty() {
            self.orders.retain(|order| order.quantity > 0);
        }
        if order.quantity > 0 {
            self.orders.push(order);
        }
        Ok(())
    }

    /// Each open order loses the fill that the rule for clear gives it.
    fn clear(&mut self) {
        let mut fills = vec![0; self.orders.len()];
        clearing::clear(&self.orders, &mut fills, &mut Vec::new());
        for (order, fill) in self.orders.iter_mut().zip(fills) {
            order.quantity -= fill;
        }
        self.orders.retain(|order| order.quantity > 0);
    }

    /// Raising and lowering open, for each unit and period.
    fn open(&self) -> Vec<[i128; 2]> {
        let periods = 24 * self.days as usize;
        let mut open = vec![[0; 2]; self.units.len() * periods];
        for offer in &self.offers {
            let start = (offer.unit as usize - 1) * periods;
            for (at, &amount) in open[start..].iter_mut().zip(&offer.amounts) {
                at[0] += amount as i128;
            }
        }
        for order in &self.orders {
            let unit = order.unit as usize - 1;
            let raises = is_generator(self.units[unit].kind) == (order.direction == SELL);
            let at = &mut open[unit * periods + order.period as usize];
            at[if raises { 0 } else { 1 }] += order.quantity as i128;
        }
        open
    }

    /// Do the book's open declarations agree with the tally's? Not part of demand 3.
    pub fn agrees(&self, book: &Book) -> bool {
        self.orders == book.orders
            && self.offers.len() == book.offers.len()
            && self.offers.iter().zip(&book.offers).all(|(open, offer)| {
                open.number == offer.number
                    && open.unit == offer.unit
                    && open.amounts == offer.amounts
            })
    }
}

/// Demand 3 after a list: the book against the tally of the list that made it. The ends decide
/// what any part of the open amounts can do: all raising and no lowering, or the reverse.
pub fn demand3(tally: &Tally, book: &Book) -> Result<(), String> {
    if tally.days != book.days || tally.units.len() != book.units.len() {
        return Err("days or units".to_string());
    }
    let periods = 24 * tally.days as usize;
    let open = tally.open();
    // Generators' nets less loads' nets, in every hour.
    let mut balance = vec![0; periods];
    for (place, tallied) in tally.units.iter().enumerate() {
        let open = &open[place * periods..(place + 1) * periods];
        balance_unit(tallied, &mut balance);
        within_limits(tally.days, tallied, open).map_err(|what| at_unit(place, what))?;
        book_agrees(tallied, book, place).map_err(|what| at_unit(place, what))?;
    }
    match balance.iter().position(|&difference| difference != 0) {
        Some(period) => Err(format!("generators' and loads' nets differ in period {period}")),
        None => Ok(()),
    }
}

/// Names the unit that a claim fails for.
fn at_unit(place: usize, what: String) -> String {
    format!("unit {}: {what}", place + 1)
}

/// Adds a generator's nets and takes off a load's.
fn balance_unit(tallied: &Tallied, balance: &mut [i128]) {
    let sign = if is_generator(tallied.kind) { 1 } else { -1 };
    for (period, difference) in balance.iter_mut().enumerate() {
        *difference += sign * tallied.net(period);
    }
}

/// Whatever part of the open amounts trades: nets stay within 0 and the hour limit, term and volume
/// limits hold.
fn within_limits(days: u64, tallied: &Tallied, open: &[[i128; 2]]) -> Result<(), String> {
    let mut term = 0;
    let mut volume = 0;
    for (period, [raising, lowering]) in open.iter().enumerate() {
        let net = tallied.net(period);
        let hour = hour_limit(tallied.kind, tallied.capacity, period as u64 % 24);
        if net + raising > hour as i128 {
            return Err(format!("hour limit in period {period}"));
        }
        if net - lowering < 0 {
            return Err(format!("net below 0 in period {period}"));
        }
        term += net + raising;
        volume += tallied.volume(period) + raising + lowering;
    }
    let limit = term_limit(days, tallied.kind, tallied.capacity, tallied.asset);
    if term > limit as i128 {
        return Err("term limit".to_string());
    }
    if volume > volume_limit(tallied.kind, limit) as i128 {
        return Err("volume limit".to_string());
    }
    Ok(())
}

/// The book's nets and volumes are what the rows sum to; each hour's two curve points sum to the
/// net and differ by at most 1.
fn book_agrees(tallied: &Tallied, book: &Book, place: usize) -> Result<(), String> {
    let unit = &book.units[place];
    if unit.figures.len() != tallied.sold.len() {
        return Err("periods".to_string());
    }
    for (period, figures) in unit.figures.iter().enumerate() {
        let net = figures.held as i128 + figures.raised as i128 - figures.lowered as i128;
        if net != tallied.net(period) || net < 0 {
            return Err(format!("net in period {period}"));
        }
        if figures.volume as i128 != tallied.volume(period) {
            return Err(format!("volume in period {period}"));
        }
    }
    for day in 0..book.days {
        let points = book.points(place as u64 + 1, day);
        for (hour, pair) in points.chunks(2).enumerate() {
            let period = 24 * day as usize + hour;
            let sum = pair[0] as i128 + pair[1] as i128;
            if sum != tallied.net(period) || pair[0].abs_diff(pair[1]) > 1 {
                return Err(format!("curve in period {period}"));
            }
        }
    }
    Ok(())
}
