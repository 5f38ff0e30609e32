//! The book: its units with their figures, its open offers and its open orders.
//! Paper: "Units of measure and the book". Every field is open to all, so that tests can forge books.

use crate::limits::is_generator;

/// The highest ceiling price, in thousandths of a yuan per MWh.
pub const MOST_PRICE: u64 = 10_000_000;
/// The call phase.
pub const CALL: u64 = 0;
/// The rolling phase.
pub const ROLLING: u64 = 1;
/// The direction of an order that sells.
pub const SELL: u64 = 0;
/// The direction of an order that buys.
pub const BUY: u64 = 1;

/// A book. What is open is not kept in figures: it is summed from offers and orders.
#[derive(Clone, Debug, PartialEq, Eq)]
pub struct Book {
    pub days: u64,
    pub floor: u64,
    pub ceiling: u64,
    /// 0 call, 1 rolling.
    pub phase: u64,
    /// How many numbers were given today.
    pub given: u64,
    pub units: Vec<Unit>,
    /// Open offers, numbers rising.
    pub offers: Vec<Offer>,
    /// Open orders, numbers rising.
    pub orders: Vec<Order>,
}

/// A unit, with one set of figures for each period.
#[derive(Clone, Debug, PartialEq, Eq)]
pub struct Unit {
    pub kind: u64,
    pub capacity: u64,
    pub asset: u64,
    pub figures: Vec<Figures>,
}

/// A unit's figures in a period.
#[derive(Clone, Copy, Debug, Default, PartialEq, Eq)]
pub struct Figures {
    /// The net when the trading day began.
    pub held: u64,
    /// Raising traded today.
    pub raised: u64,
    /// Lowering traded today.
    pub lowered: u64,
    /// All energy traded over the term.
    pub volume: u64,
    /// Today's trades of way 3 or 4: 0 none, 1 sold, 2 bought, 3 both.
    pub mark: u64,
}

/// An open offer; partner 0 makes it a listing.
#[derive(Clone, Debug, PartialEq, Eq)]
pub struct Offer {
    pub number: u64,
    pub unit: u64,
    pub partner: u64,
    pub price: u64,
    /// 1 once some of it was taken.
    pub taken: u64,
    /// What remains, for each period.
    pub amounts: Vec<u64>,
}

/// An open order.
#[derive(Clone, Copy, Debug, PartialEq, Eq)]
pub struct Order {
    pub number: u64,
    pub unit: u64,
    /// 0 sell, 1 buy.
    pub direction: u64,
    pub period: u64,
    pub price: u64,
    /// What is left of it.
    pub quantity: u64,
}

impl Book {
    /// The most numbers given in a day.
    pub const MOST_NUMBERS: u64 = 65_535;

    /// Memory before an opening: not a sound book.
    pub fn blank() -> Book {
        Book {
            days: 0,
            floor: 0,
            ceiling: 0,
            phase: CALL,
            given: 0,
            units: Vec::new(),
            offers: Vec::new(),
            orders: Vec::new(),
        }
    }

    /// The number of periods; of a damaged book too.
    pub fn periods(&self) -> u64 {
        self.days.saturating_mul(24)
    }

    /// Does this number name an enrolled unit?
    pub fn names(&self, unit: u64) -> bool {
        unit >= 1 && unit <= self.units.len() as u64
    }

    /// The enrolled unit of this number.
    pub fn unit(&self, unit: u64) -> &Unit {
        &self.units[unit as usize - 1]
    }

    /// Price in floor to ceiling?
    pub fn price_in_range(&self, price: u64) -> bool {
        self.floor <= price && price <= self.ceiling
    }
}

impl Unit {
    /// The most units of a book.
    pub const MOST: usize = 64;

    /// A fresh unit.
    pub fn fresh(kind: u64, capacity: u64, asset: u64, periods: usize) -> Unit {
        Unit { kind, capacity, asset, figures: vec![Figures::default(); periods] }
    }

    /// Does an order of this direction raise the unit's net?
    pub fn raises(&self, direction: u64) -> bool {
        is_generator(self.kind) == (direction == SELL)
    }

    /// Books a trade of this unit; the direction is sell or buy.
    pub fn trade(&mut self, period: u64, direction: u64, quantity: u64) {
        let raises = self.raises(direction);
        let figures = &mut self.figures[period as usize];
        if raises {
            figures.raised += quantity;
        } else {
            figures.lowered += quantity;
        }
        figures.volume += quantity;
    }

    /// Marks that the unit traded in this direction today by way 3 or 4; the other direction's mark stays.
    pub fn mark(&mut self, period: u64, direction: u64) {
        self.figures[period as usize].mark |= mark_of(direction);
    }
}

impl Figures {
    /// The highest mark: sold and bought.
    pub const MOST_MARK: u64 = 3;

    /// Did the unit trade in this direction today by way 3 or 4?
    pub fn marked(&self, direction: u64) -> bool {
        self.mark & mark_of(direction) != 0
    }

    /// The net of a sound book's figures.
    pub fn net(&self) -> u64 {
        self.held + self.raised - self.lowered
    }
}

impl Offer {
    /// The most open offers of a book.
    pub const MOST: usize = 8;

    /// What remains of it, over the term.
    pub fn total(&self) -> u64 {
        total(&self.amounts)
    }
}

impl Order {
    /// The most open orders of a book.
    pub const MOST: usize = 256;
}

/// The mark of a direction: 1 sold, 2 bought.
fn mark_of(direction: u64) -> u64 {
    if direction == SELL {
        1
    } else {
        2
    }
}

/// The sum of a list. One past 64 bits stands at the top, which is over every limit.
pub fn total(amounts: &[u64]) -> u64 {
    amounts.iter().fold(0, |sum, &amount| sum.saturating_add(amount))
}
