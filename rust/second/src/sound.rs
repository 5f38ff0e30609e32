//! Whether a book is sound.
//! Paper: "A book is sound if", in "Limits", taken word for word; check 1.

use crate::book::{total, Book, Offer, Order, Unit, BUY, MOST_PRICE, ROLLING};
use crate::fits::{fit, Open};
use crate::limits::{capacity_in_range, days_in_range, is_generator, kind_in_range, MOST_PERIODS};
use crate::sharing::MOST_ENERGY;

/// Is this book sound? Any book may be asked about, a damaged one too.
pub fn sound(book: &Book) -> bool {
    frame(book) && numbers(book) && offers(book) && orders(book) && uncrossed(book) && units(book)
}

/// The book's own figures and the lengths of its lists lie in their ranges.
fn frame(book: &Book) -> bool {
    days_in_range(book.days)
        && book.floor <= book.ceiling
        && book.ceiling <= MOST_PRICE
        && book.phase <= ROLLING
        && book.given <= Book::MOST_NUMBERS
        && book.units.len() <= Unit::MOST
        && book.offers.len() <= Offer::MOST
        && book.orders.len() <= Order::MOST
}

/// Open numbers were given today, differ, and stand rising in both lists.
fn numbers(book: &Book) -> bool {
    let mut last = 0;
    for offer in &book.offers {
        if offer.number <= last {
            return false;
        }
        last = offer.number;
    }
    if last > book.given {
        return false;
    }
    last = 0;
    for order in &book.orders {
        if order.number <= last {
            return false;
        }
        last = order.number;
    }
    if last > book.given {
        return false;
    }
    let in_orders =
        |number| book.orders.binary_search_by_key(&number, |order| order.number).is_ok();
    !book.offers.iter().any(|offer| in_orders(offer.number))
}

/// Each offer's figures lie in their ranges; it names enrolled units of the side its call wants.
fn offers(book: &Book) -> bool {
    book.offers.iter().all(|offer| {
        let sides = offer.partner == 0
            || book.names(offer.partner)
                && book.names(offer.unit)
                && is_generator(book.unit(offer.unit).kind)
                && !is_generator(book.unit(offer.partner).kind);
        book.names(offer.unit)
            && sides
            && book.price_in_range(offer.price)
            && offer.taken <= 1
            && offer.amounts.len() as u64 == book.periods()
            && (1..=MOST_ENERGY).contains(&total(&offer.amounts))
    })
}

/// Each order's figures lie in their ranges; it names an enrolled unit.
fn orders(book: &Book) -> bool {
    book.orders.iter().all(|order| {
        book.names(order.unit)
            && order.direction <= BUY
            && order.period < book.periods()
            && book.price_in_range(order.price)
            && order.quantity >= 1
    })
}

/// No open buy and sell of one period cross in the rolling phase.
fn uncrossed(book: &Book) -> bool {
    if book.phase != ROLLING || book.orders.is_empty() {
        return true;
    }
    // By period: one above the highest buy price (0 if none), and the lowest sell price.
    let mut above_buys = [0; MOST_PERIODS];
    let mut lowest_sell = [u64::MAX; MOST_PERIODS];
    for order in &book.orders {
        let above = &mut above_buys[order.period as usize];
        let lowest = &mut lowest_sell[order.period as usize];
        if order.direction == BUY {
            *above = (*above).max(order.price + 1);
        } else {
            *lowest = (*lowest).min(order.price);
        }
        if *above > *lowest {
            return false;
        }
    }
    true
}

/// Each unit's figures lie in their ranges, it fits, and has no open orders both ways in a period.
fn units(book: &Book) -> bool {
    // The orders of each unit, as a chain of places in the list of orders.
    const END: usize = Order::MOST;
    let mut first = [END; Unit::MOST];
    let mut next = [END; Order::MOST];
    for (place, order) in book.orders.iter().enumerate() {
        let unit = order.unit as usize - 1;
        next[place] = first[unit];
        first[unit] = place;
    }
    let mut open = Open::none();
    for (place, unit) in book.units.iter().enumerate() {
        if !kind_in_range(unit.kind)
            || !capacity_in_range(unit.capacity, unit.asset)
            || unit.figures.len() as u64 != book.periods()
        {
            return false;
        }
        let mut some = false;
        let mut at = first[place];
        while at != END {
            let order = &book.orders[at];
            open.add_order(unit, order);
            // Only orders are added yet: both above 0 means orders both ways.
            let period = order.period as usize;
            if open.raising[period] > 0 && open.lowering[period] > 0 {
                return false;
            }
            some = true;
            at = next[at];
        }
        for offer in &book.offers {
            if offer.unit == place as u64 + 1 {
                open.add_offer(offer);
                some = true;
            }
        }
        if fit(book.days, unit, &open) != 0 {
            return false;
        }
        if some {
            open.empty(unit.figures.len());
        }
    }
    true
}
