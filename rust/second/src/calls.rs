//! Opening, enrol, offer, take, withdraw, cancel, close and curve; order and clear are in orders.rs.
//! Paper: "The eight calls" and "Refusals by place of check": each check stands in rising number.

use crate::book::{total, Book, Offer, Unit, CALL, MOST_PRICE};
use crate::fits::{fit, Open};
use crate::limits::{capacity_in_range, days_in_range, is_generator, kind_in_range, MOST_PERIODS};
use crate::sharing::{share, MOST_ENERGY};
use crate::sound::sound;

/// The numbers of the 744 rows that take, order and clear want lent.
pub const ROWS_LENT: u64 = 744 * 6;
/// The numbers that the curve wants lent.
pub const POINTS_LENT: u64 = 48;

/// A trade.
#[derive(Clone, Copy, Debug, PartialEq, Eq)]
pub struct Row {
    /// 1 bilateral, 2 listing, 3 clear, 4 rolling.
    pub way: u64,
    pub period: u64,
    pub seller: u64,
    pub buyer: u64,
    pub quantity: u64,
    pub price: u64,
}

/// What an accepted call returns.
#[derive(Clone, Debug, Default, PartialEq, Eq)]
pub struct Answer {
    pub number: u64,
    pub rows: Vec<Row>,
}

impl Answer {
    /// An answer without rows.
    pub fn of(number: u64) -> Answer {
        Answer { number, rows: Vec::new() }
    }
}

/// A call with its arguments. `lent` counts numbers lent, not rows.
#[derive(Clone, Debug, PartialEq, Eq)]
pub enum Call {
    /// `short`: the memory is too short for these days.
    Open {
        short: bool,
        days: u64,
        floor: u64,
        ceiling: u64,
    },
    Enrol {
        kind: u64,
        capacity: u64,
        asset: u64,
    },
    Offer {
        unit: u64,
        partner: u64,
        price: u64,
        amounts: Vec<u64>,
    },
    Take {
        unit: u64,
        number: u64,
        quantity: u64,
        lent: u64,
    },
    Withdraw {
        unit: u64,
        number: u64,
    },
    Order {
        unit: u64,
        direction: u64,
        period: u64,
        price: u64,
        quantity: u64,
        lent: u64,
    },
    Cancel {
        unit: u64,
        number: u64,
    },
    Clear {
        lent: u64,
    },
    Close,
    Curve {
        unit: u64,
        day: u64,
        lent: u64,
    },
}

/// Check 9 of a quantity or a total.
pub(crate) fn energy_in_range(energy: u64) -> bool {
    (1..=MOST_ENERGY).contains(&energy)
}

/// A refusal unless `holds`.
pub(crate) fn check(holds: bool, refusal: u64) -> Result<(), u64> {
    if holds {
        Ok(())
    } else {
        Err(refusal)
    }
}

impl Book {
    /// Makes any call. A curve's points are dropped: call `curve` for them.
    pub fn make(&mut self, call: &Call) -> Result<Answer, u64> {
        match *call {
            Call::Open { short, days, floor, ceiling } => self.open(short, days, floor, ceiling),
            Call::Enrol { kind, capacity, asset } => self.enrol(kind, capacity, asset),
            Call::Offer { unit, partner, price, ref amounts } => {
                self.offer(unit, partner, price, amounts)
            }
            Call::Take { unit, number, quantity, lent } => self.take(unit, number, quantity, lent),
            Call::Withdraw { unit, number } => self.withdraw(unit, number),
            Call::Order { unit, direction, period, price, quantity, lent } => {
                self.order(unit, direction, period, price, quantity, lent)
            }
            Call::Cancel { unit, number } => self.cancel(unit, number),
            Call::Clear { lent } => self.clear(lent),
            Call::Close => self.close(),
            Call::Curve { unit, day, lent } => self.curve(unit, day, lent).map(|_| Answer::of(0)),
        }
    }

    /// Opens a fresh book in this place, whatever stood here. `short` says that the lent memory is
    /// shorter than these days need, which a Vec never is.
    pub fn open(
        &mut self,
        short: bool,
        days: u64,
        floor: u64,
        ceiling: u64,
    ) -> Result<Answer, u64> {
        check(!(short && days_in_range(days)), 1)?;
        check(days_in_range(days) && floor <= ceiling && ceiling <= MOST_PRICE, 2)?;
        *self = Book { days, floor, ceiling, ..Book::blank() };
        Ok(Answer::of(0))
    }

    /// Adds a unit.
    pub fn enrol(&mut self, kind: u64, capacity: u64, asset: u64) -> Result<Answer, u64> {
        check(sound(self), 1)?;
        check(kind_in_range(kind), 3)?;
        check(capacity_in_range(capacity, asset), 4)?;
        check(self.units.len() < Unit::MOST, 5)?;
        self.units.push(Unit::fresh(kind, capacity, asset, self.periods() as usize));
        Ok(Answer::of(self.units.len() as u64))
    }

    /// Opens a bilateral offer to the partner, or a listing if the partner is 0.
    pub fn offer(
        &mut self,
        unit: u64,
        partner: u64,
        price: u64,
        amounts: &[u64],
    ) -> Result<Answer, u64> {
        check(sound(self), 1)?;
        check(self.names(unit) && (partner == 0 || self.names(partner)), 6)?;
        check(self.price_in_range(price), 8)?;
        let listed = amounts.len() as u64 == self.periods();
        check(listed && energy_in_range(total(amounts)), 9)?;
        let sides = partner == 0 || self.generator(unit) && !self.generator(partner);
        check(sides, 12)?;
        check(self.offers.len() < Offer::MOST, 17)?;
        check(self.given < Book::MOST_NUMBERS, 18)?;
        self.fit_amounts(unit, amounts)?;
        self.given += 1;
        let number = self.given;
        let amounts = amounts.to_vec();
        self.offers.push(Offer { number, unit, partner, price, taken: 0, amounts });
        Ok(Answer::of(number))
    }

    /// Takes a quantity of an open offer.
    pub fn take(
        &mut self,
        unit: u64,
        number: u64,
        quantity: u64,
        lent: u64,
    ) -> Result<Answer, u64> {
        check(sound(self), 1)?;
        check(self.names(unit), 6)?;
        check(lent >= ROWS_LENT, 7)?;
        check(energy_in_range(quantity), 9)?;
        let place = self.offers.iter().position(|offer| offer.number == number).ok_or(11_u64)?;
        let offer = &self.offers[place];
        let left = offer.total();
        let can_take = if offer.partner == 0 {
            self.generator(unit) != self.generator(offer.unit) && quantity <= left
        } else {
            unit == offer.partner && quantity == left
        };
        check(can_take, 12)?;
        let mut parts = [0; MOST_PERIODS];
        share(quantity, &offer.amounts, &mut parts);
        let parts = &parts[..offer.amounts.len()];
        self.fit_amounts(unit, parts)?;
        let rows = self.book_take(unit, place, parts);
        if quantity == left {
            self.offers.remove(place);
        }
        Ok(Answer { number: 0, rows })
    }

    /// Books the parts that a unit takes of the offer at this place.
    fn book_take(&mut self, unit: u64, place: usize, parts: &[u64]) -> Vec<Row> {
        let way = if self.offers[place].partner == 0 { 2 } else { 1 };
        let maker = self.offers[place].unit;
        let (seller, buyer) = if self.generator(maker) { (maker, unit) } else { (unit, maker) };
        let offer = &mut self.offers[place];
        offer.taken = 1;
        let price = offer.price;
        let mut rows = Vec::with_capacity(parts.iter().filter(|&&part| part > 0).count());
        for (period, &quantity) in parts.iter().enumerate() {
            if quantity > 0 {
                offer.amounts[period] -= quantity;
                let period = period as u64;
                rows.push(Row { way, period, seller, buyer, quantity, price });
            }
        }
        for row in &rows {
            self.trade(row);
        }
        rows
    }

    /// Removes an own offer of which nothing is taken.
    pub fn withdraw(&mut self, unit: u64, number: u64) -> Result<Answer, u64> {
        check(sound(self), 1)?;
        check(self.names(unit), 6)?;
        let own = |offer: &Offer| offer.number == number && offer.unit == unit;
        let place = self.offers.iter().position(own).ok_or(11_u64)?;
        check(self.offers[place].taken == 0, 13)?;
        self.offers.remove(place);
        Ok(Answer::of(0))
    }

    /// Removes what is left of an own order.
    pub fn cancel(&mut self, unit: u64, number: u64) -> Result<Answer, u64> {
        check(sound(self), 1)?;
        check(self.names(unit), 6)?;
        let place = self.orders.binary_search_by_key(&number, |order| order.number);
        let place = place.map_err(|_| 11_u64)?;
        check(self.orders[place].unit == unit, 11)?;
        self.orders.remove(place);
        Ok(Answer::of(0))
    }

    /// Closes the trading day.
    pub fn close(&mut self) -> Result<Answer, u64> {
        check(sound(self), 1)?;
        self.offers.clear();
        self.orders.clear();
        self.given = 0;
        self.phase = CALL;
        for unit in &mut self.units {
            for figures in &mut unit.figures {
                figures.held = figures.net();
                figures.raised = 0;
                figures.lowered = 0;
                figures.mark = 0;
            }
        }
        Ok(Answer::of(0))
    }

    /// The 48 points of a unit's day.
    pub fn curve(&self, unit: u64, day: u64, lent: u64) -> Result<[u64; 48], u64> {
        check(sound(self), 1)?;
        check(self.names(unit), 6)?;
        check(lent >= POINTS_LENT, 7)?;
        check(day < self.days, 10)?;
        Ok(self.points(unit, day))
    }

    /// The curve of a sound book's unit and day: each net's lower half, then the rest.
    pub fn points(&self, unit: u64, day: u64) -> [u64; 48] {
        let mut points = [0; 48];
        let start = 24 * day as usize;
        let hours = &self.unit(unit).figures[start..start + 24];
        for (pair, figures) in points.chunks_mut(2).zip(hours) {
            let net = figures.net();
            pair[0] = net / 2;
            pair[1] = net - net / 2;
        }
        points
    }

    /// Is this enrolled unit a generator?
    pub(crate) fn generator(&self, unit: u64) -> bool {
        is_generator(self.unit(unit).kind)
    }

    /// Checks 19 to 21 of a unit with raising amounts added.
    fn fit_amounts(&self, unit: u64, amounts: &[u64]) -> Result<(), u64> {
        let mut open = Open::of(self, unit);
        open.add_amounts(amounts);
        self.fit(unit, &open)
    }

    /// Checks 19 to 21 of a unit with this open.
    pub(crate) fn fit(&self, unit: u64, open: &Open) -> Result<(), u64> {
        match fit(self.days, self.unit(unit), open) {
            0 => Ok(()),
            refusal => Err(refusal),
        }
    }
}
