//! What is open of a unit, and whether the unit fits its limits.
//! Paper: "Limits", its last two paragraphs; checks 19, 20 and 21.

use crate::book::{Book, Figures, Offer, Order, Unit};
use crate::limits::{hour_limit, term_limit, volume_limit, MOST_PERIODS};

/// What is open of one unit in each period. Sums past 64 bits stand at the top, over every limit.
pub struct Open {
    pub raising: [u64; MOST_PERIODS],
    pub lowering: [u64; MOST_PERIODS],
}

impl Open {
    /// Nothing open.
    pub fn none() -> Open {
        Open { raising: [0; MOST_PERIODS], lowering: [0; MOST_PERIODS] }
    }

    /// Back to nothing open, in the first so many periods.
    pub fn empty(&mut self, periods: usize) {
        self.raising[..periods].fill(0);
        self.lowering[..periods].fill(0);
    }

    /// What a unit of a sound book has open.
    pub fn of(book: &Book, unit: u64) -> Open {
        let mut open = Open::none();
        for order in &book.orders {
            if order.unit == unit {
                open.add_order(book.unit(unit), order);
            }
        }
        for offer in &book.offers {
            if offer.unit == unit {
                open.add_offer(offer);
            }
        }
        open
    }

    /// Adds an order of this unit.
    pub fn add_order(&mut self, unit: &Unit, order: &Order) {
        self.add(unit.raises(order.direction), order.period as usize, order.quantity);
    }

    /// Adds an offer. Generators sell by offers and loads buy, so it raises.
    pub fn add_offer(&mut self, offer: &Offer) {
        self.add_amounts(&offer.amounts);
    }

    /// Adds raising amounts, one for each period.
    pub fn add_amounts(&mut self, amounts: &[u64]) {
        for (period, &amount) in amounts.iter().enumerate() {
            self.add(true, period, amount);
        }
    }

    /// Adds an amount in a period.
    pub fn add(&mut self, raises: bool, period: usize, amount: u64) {
        let open = if raises { &mut self.raising[period] } else { &mut self.lowering[period] };
        *open = open.saturating_add(amount);
    }
}

/// Does the unit fit with this open? Gives 0, or the first of 19, 20 and 21 that does not hold.
/// Gives 1 for a mark out of range, which no sound book has: so one pass serves check 1 as well.
/// The unit's fields are in range and it has a set of figures for each period.
pub fn fit(days: u64, unit: &Unit, open: &Open) -> u64 {
    let mut limits = [0; 24];
    for (hour, limit) in limits.iter_mut().enumerate() {
        *limit = hour_limit(unit.kind, unit.capacity, hour as u64);
    }
    let mut term: u64 = 0;
    let mut declared: u64 = 0;
    let mut traded: u64 = 0;
    let days_open = open.raising.chunks(24).zip(open.lowering.chunks(24));
    for (day, (raisings, lowerings)) in unit.figures.chunks(24).zip(days_open) {
        let hours = raisings.iter().zip(lowerings).zip(&limits);
        for (figures, ((&raising, &lowering), &limit)) in day.iter().zip(hours) {
            let up = figures.held.saturating_add(figures.raised).saturating_add(raising);
            let down = figures.lowered.saturating_add(lowering);
            if figures.mark > Figures::MOST_MARK {
                return 1;
            }
            if up > limit || down > figures.held {
                return 19;
            }
            // All but the volume are within the hour limit by now.
            term += up;
            declared += raising + lowering;
            traded = traded.saturating_add(figures.volume);
        }
    }
    let term_limit = term_limit(days, unit.kind, unit.capacity, unit.asset);
    if term > term_limit {
        return 20;
    }
    if traded.saturating_add(declared) > volume_limit(unit.kind, term_limit) {
        return 21;
    }
    0
}
