//! A seeded generator of calls that drives a book into deep states, in several manners.
//! It serves the tests of "Refusals by place of check" and "The tally" of the paper.

use crate::book::{total, Book, Order, BUY, MOST_PRICE, ROLLING, SELL};
use crate::calls::{Call, POINTS_LENT, ROWS_LENT};
use crate::limits::is_generator;
use crate::manners::Manner;
use crate::random::Random;
use crate::rooms::{hour_room, hour_rooms, room};
use crate::sharing::MOST_ENERGY;

/// Draws the calls of one list.
pub struct Generator {
    pub random: Random,
    manner: &'static Manner,
    /// Units to enrol at the start.
    units: u64,
    /// The first of the periods that most orders name.
    first: u64,
}

impl Generator {
    pub fn new(seed: u64, manner: &'static Manner) -> Generator {
        let mut random = Random::new(seed);
        let units = random.between(manner.units);
        let first = random.below(24);
        Generator { random, manner, units, first }
    }

    /// The next call; the book says what the calls so far made.
    pub fn call(&mut self, book: &Book) -> Call {
        if book.days == 0 {
            return self.open();
        }
        if (book.units.len() as u64) < self.units && !self.random.once_in(16) {
            return self.enrol();
        }
        let numbers = self.manner.name == "numbers" && book.given < Book::MOST_NUMBERS;
        if numbers && !book.units.is_empty() {
            return self.next_number(book);
        }
        let mut drawn = self.random.below(self.manner.weights.iter().sum());
        let mut which = 0;
        while drawn >= self.manner.weights[which] {
            drawn -= self.manner.weights[which];
            which += 1;
        }
        match which {
            0 => self.enrol(),
            1 => self.offer(book),
            2 => self.take(book),
            3 => self.withdraw(book),
            5 => self.cancel(book),
            6 if book.phase != ROLLING || self.random.once_in(6) => {
                Call::Clear { lent: self.lent(ROWS_LENT) }
            }
            7 if self.random.once_in(20) => self.refused_open(),
            7 => Call::Close,
            8 => self.curve(book),
            _ => self.order(book),
        }
    }

    /// The value, or now and then one that is off its range or off by one.
    fn spoil(&mut self, value: u64) -> u64 {
        if !self.random.once_in(self.manner.spoil) {
            return value;
        }
        match self.random.below(8) {
            0 => 0,
            1 => value.wrapping_add(1),
            2 => value.wrapping_sub(1),
            3 => MOST_ENERGY,
            4 => MOST_ENERGY + 1,
            5 => u64::MAX,
            6 => self.random.below(100),
            _ => self.random.draw(),
        }
    }

    /// Numbers lent: enough, or now and then one too few.
    fn lent(&mut self, needed: u64) -> u64 {
        match self.random.below(2 * self.manner.spoil) {
            0 => needed - 1,
            1 => self.random.below(needed),
            2 => needed + self.random.below(9),
            _ => needed,
        }
    }

    fn open(&mut self) -> Call {
        if self.random.once_in(5) {
            return self.refused_open();
        }
        let days = self.random.between(self.manner.days);
        let ceiling = self.random.between(self.manner.ceiling);
        let floor = if self.random.once_in(3) { self.random.below(ceiling / 8 + 1) } else { 0 };
        Call::Open { short: false, days, floor, ceiling }
    }

    /// An opening that is refused, so that a list has one opening.
    fn refused_open(&mut self) -> Call {
        let days = self.random.below(33);
        let ceiling = self.random.below(9);
        match self.random.below(4) {
            0 => Call::Open { short: true, days, floor: self.random.below(9), ceiling },
            1 => Call::Open { short: false, days, floor: ceiling + 1, ceiling },
            2 => Call::Open { short: false, days, floor: 0, ceiling: MOST_PRICE + 1 },
            _ => {
                let days = self.random.one_of(&[0, 32, u64::MAX]);
                Call::Open { short: self.random.once_in(2), days, floor: 0, ceiling }
            }
        }
    }

    fn enrol(&mut self) -> Call {
        let kind = self.random.one_of(self.manner.kinds);
        let capacity = self.random.between(self.manner.capacity);
        let asset = self.random.between(self.manner.asset);
        Call::Enrol {
            kind: self.spoil(kind),
            capacity: self.spoil(capacity),
            asset: self.spoil(asset),
        }
    }

    /// An enrolled unit.
    fn unit(&mut self, book: &Book) -> u64 {
        1 + self.random.below(book.units.len().max(1) as u64)
    }

    /// An enrolled generator or load; any unit if a few tries find none.
    fn unit_of_side(&mut self, book: &Book, generator: bool) -> u64 {
        let mut unit = self.unit(book);
        for _ in 0..8 {
            if book.names(unit) && is_generator(book.unit(unit).kind) == generator {
                break;
            }
            unit = self.unit(book);
        }
        unit
    }

    fn period(&mut self, book: &Book) -> u64 {
        if self.random.once_in(30) {
            return self.random.below(book.periods() + 1);
        }
        let day = self.random.below(book.days);
        24 * day + (self.first + self.random.below(self.manner.periods)) % 24
    }

    fn price(&mut self, book: &Book, direction: u64) -> u64 {
        let band = book.ceiling - book.floor;
        let price = if self.manner.apart && !self.random.once_in(12) {
            let half = self.random.below(band / 2 + 1);
            if direction == BUY {
                book.floor + half
            } else {
                book.ceiling - half
            }
        } else {
            book.floor + self.random.below(band + 1)
        };
        self.spoil(price)
    }

    /// A quantity: small, all that fits, one more, or a part of it.
    fn quantity(&mut self, room: u64) -> u64 {
        match self.random.below(8) {
            0 => room.max(1),
            1 if self.random.once_in(2) => room.saturating_add(1),
            2 => 1 + self.random.below(room / 2 + 1),
            3 => 1 + self.random.below(self.manner.quantity),
            _ => 1 + self.random.below(self.manner.quantity.min(room).max(1)),
        }
    }

    /// What an order could still declare; now and then the room of its hour alone, so that the
    /// term or the volume is what it passes.
    fn room(&mut self, book: &Book, unit: u64, direction: u64, period: u64) -> u64 {
        if self.random.once_in(4) {
            hour_room(book, unit, direction, period)
        } else {
            room(book, unit, direction, period)
        }
    }

    fn order(&mut self, book: &Book) -> Call {
        let meets = !self.manner.apart || self.random.once_in(8);
        let waiting = book.orders.len() as u64;
        let meant = if meets && waiting > 0 && self.random.once_in(2) {
            Some(book.orders[self.random.below(waiting) as usize])
        } else {
            None
        };
        // Draw until something fits, for a few times.
        let mut drawn = self.draw_order(book, meant);
        for _ in 0..4 {
            if drawn.3 > 0 {
                break;
            }
            drawn = self.draw_order(book, meant);
        }
        let (unit, direction, period, room) = drawn;
        let price = match meant {
            Some(waiting) if !self.random.once_in(4) => self.spoil(waiting.price),
            _ => self.price(book, direction),
        };
        let quantity = self.quantity(room);
        Call::Order {
            unit: self.spoil(unit),
            direction: self.spoil(direction),
            period: self.spoil(period),
            price,
            quantity: self.spoil(quantity),
            lent: self.lent(ROWS_LENT),
        }
    }

    /// Draws an order's unit, direction and period, with the room that they leave. If it is meant
    /// for a waiting order, it goes against it in its period.
    fn draw_order(&mut self, book: &Book, meant: Option<Order>) -> (u64, u64, u64, u64) {
        let unit = self.unit(book);
        let mut period = self.period(book);
        let mut direction = self.random.below(2);
        if let Some(waiting) = meant {
            period = waiting.period;
            direction = 1 - waiting.direction;
        }
        if !book.names(unit) || period >= book.periods() {
            return (unit, direction, period, 0);
        }
        if !self.random.once_in(24) {
            let own = self.direction(book, unit, period);
            if meant.is_some() && own != direction {
                return (unit, direction, period, 0);
            }
            direction = own;
        }
        (unit, direction, period, self.room(book, unit, direction, period))
    }

    /// The direction that the unit goes already in the period; else raising, or lowering of what is held.
    fn direction(&mut self, book: &Book, unit: u64, period: u64) -> u64 {
        let figures = &book.unit(unit).figures[period as usize];
        if let Some(direction) =
            [SELL, BUY].into_iter().find(|&direction| figures.marked(direction))
        {
            return direction;
        }
        for order in &book.orders {
            if order.unit == unit && order.period == period {
                return order.direction;
            }
        }
        let raising = if is_generator(book.unit(unit).kind) { SELL } else { BUY };
        if figures.held > 0 && self.random.once_in(2) {
            1 - raising
        } else {
            raising
        }
    }

    fn offer(&mut self, book: &Book) -> Call {
        let unit = self.unit(book);
        let generator = book.names(unit) && is_generator(book.unit(unit).kind);
        let bilateral = if generator { self.random.once_in(2) } else { self.random.once_in(16) };
        let partner = if bilateral { self.unit_of_side(book, false) } else { 0 };
        let either = self.random.below(2);
        let price = self.price(book, either);
        let mut amounts = vec![0; book.periods() as usize];
        if book.names(unit) {
            self.fill_amounts(book, unit, &mut amounts);
        }
        if self.random.once_in(2 * self.manner.spoil) {
            amounts.pop();
        } else if self.random.once_in(2 * self.manner.spoil) {
            amounts.push(0);
        }
        if self.random.once_in(2 * self.manner.spoil) {
            for amount in &mut amounts {
                *amount = self.random.one_of(&[0, u64::MAX, MOST_ENERGY, 1]);
            }
        }
        Call::Offer { unit: self.spoil(unit), partner: self.spoil(partner), price, amounts }
    }

    /// Amounts of an offer: one period, a few, small ones over the term, or all that fits.
    fn fill_amounts(&mut self, book: &Book, unit: u64, amounts: &mut [u64]) {
        let periods = amounts.len() as u64;
        let style = self.random.below(8);
        if style < 3 {
            for _ in 0..1 + style * 2 {
                let period = self.period(book).min(periods - 1);
                let direction = if is_generator(book.unit(unit).kind) { SELL } else { BUY };
                let room = self.room(book, unit, direction, period);
                amounts[period as usize] = self.quantity(room);
            }
            return;
        }
        let rooms = hour_rooms(book, unit);
        let (from, to) = if style < 5 {
            let from = self.random.below(periods);
            (from, (from + 1 + self.random.below(24)).min(periods))
        } else {
            (0, periods)
        };
        let whole = style == 7;
        for period in from..to {
            let room = rooms[period as usize];
            if room == 0 && !self.random.once_in(100) {
                continue;
            }
            let most = room.min(self.manner.quantity);
            amounts[period as usize] = if whole { room } else { self.random.below(most + 1) };
        }
        // A list over 4,000,000,000 would not be looked at: lessen most of them.
        while total(amounts) > MOST_ENERGY && !self.random.once_in(20) {
            for amount in amounts.iter_mut() {
                *amount /= 2;
            }
        }
    }

    fn take(&mut self, book: &Book) -> Call {
        let lent = self.lent(ROWS_LENT);
        if book.offers.is_empty() {
            if self.random.once_in(2) {
                return self.offer(book);
            }
            let (unit, number) = (self.unit(book), self.random.below(book.given + 2));
            return Call::Take { unit, number, quantity: 1, lent };
        }
        let place = self.random.below(book.offers.len() as u64) as usize;
        let offer = &book.offers[place];
        let total = offer.total();
        let (mut unit, mut quantity) = (offer.partner, total);
        if offer.partner == 0 {
            unit = self.unit_of_side(book, !is_generator(book.unit(offer.unit).kind));
            quantity = match self.random.below(6) {
                0 => total,
                1 => 1,
                2 if self.random.once_in(4) => total + 1,
                3 => 1 + self.random.below(total),
                _ => 1 + self.random.below(total.min(self.manner.quantity * 8)),
            };
        } else if self.random.once_in(12) {
            unit = self.unit(book);
        }
        Call::Take {
            unit: self.spoil(unit),
            number: self.spoil(offer.number),
            quantity: self.spoil(quantity),
            lent,
        }
    }

    fn withdraw(&mut self, book: &Book) -> Call {
        let (mut unit, mut number) = (self.unit(book), self.random.below(book.given + 2));
        if !book.offers.is_empty() && !self.random.once_in(8) {
            let place = self.random.below(book.offers.len() as u64) as usize;
            number = book.offers[place].number;
            if !self.random.once_in(8) {
                unit = book.offers[place].unit;
            }
        }
        Call::Withdraw { unit: self.spoil(unit), number: self.spoil(number) }
    }

    fn cancel(&mut self, book: &Book) -> Call {
        let (mut unit, mut number) = (self.unit(book), self.random.below(book.given + 2));
        if !book.orders.is_empty() && !self.random.once_in(8) {
            let place = self.random.below(book.orders.len() as u64) as usize;
            number = book.orders[place].number;
            if !self.random.once_in(8) {
                unit = book.orders[place].unit;
            }
        }
        Call::Cancel { unit: self.spoil(unit), number: self.spoil(number) }
    }

    fn curve(&mut self, book: &Book) -> Call {
        let unit = self.unit(book);
        let day = self.random.below(book.days);
        Call::Curve { unit: self.spoil(unit), day: self.spoil(day), lent: self.lent(POINTS_LENT) }
    }

    /// Orders and cancels in turn, so that the numbers of the day are used up. A unit stands.
    fn next_number(&mut self, book: &Book) -> Call {
        if self.random.once_in(400) {
            return self.order(book);
        }
        if let Some(order) = book.orders.last() {
            return Call::Cancel { unit: order.unit, number: order.number };
        }
        let unit = 1 + self.random.below(book.units.len() as u64);
        let direction = if is_generator(book.unit(unit).kind) { SELL } else { BUY };
        let period = 6 + self.random.below(14);
        let price = book.ceiling;
        Call::Order { unit, direction, period, price, quantity: 1, lent: ROWS_LENT }
    }
}
