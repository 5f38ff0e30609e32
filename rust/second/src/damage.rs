//! Damages a book by one word, or forges one that no calls make.
//! It serves the tests of "A book is sound if" and of check 1 of the paper.

use crate::book::{Book, Figures, Offer, Order, Unit, MOST_PRICE};
use crate::random::Random;

/// Changes one word of the book, or the length or order of one list. The book may stay sound.
/// It may be damaged already.
pub fn damage(random: &mut Random, book: &mut Book) {
    match random.below(8) {
        0 => damage_frame(random, book),
        1 if !book.units.is_empty() => damage_unit(random, book),
        2 | 3 if !book.units.is_empty() => damage_figures(random, book),
        4 if !book.offers.is_empty() => damage_offer(random, book),
        5 | 6 if !book.orders.is_empty() => damage_order(random, book),
        _ => damage_list(random, book),
    }
}

/// Another value for a word: near it, at an end, or any.
fn change(random: &mut Random, word: &mut u64) {
    *word = match random.below(10) {
        0 => word.wrapping_add(1),
        1 => word.wrapping_sub(1),
        2 => 0,
        3 => 1,
        4 => 2,
        5 => u64::MAX,
        6 => word.wrapping_mul(2),
        7 => *word ^ (1 << random.below(64)),
        8 => random.below(30),
        _ => random.draw(),
    };
}

/// The place of one of a list's items.
fn place<T>(random: &mut Random, list: &[T]) -> usize {
    random.below(list.len() as u64) as usize
}

fn damage_frame(random: &mut Random, book: &mut Book) {
    match random.below(5) {
        0 => change(random, &mut book.days),
        1 => change(random, &mut book.floor),
        2 => change(random, &mut book.ceiling),
        3 => change(random, &mut book.phase),
        _ => change(random, &mut book.given),
    }
}

fn damage_unit(random: &mut Random, book: &mut Book) {
    let at = place(random, &book.units);
    let unit = &mut book.units[at];
    match random.below(3) {
        0 => change(random, &mut unit.kind),
        1 => change(random, &mut unit.capacity),
        _ => change(random, &mut unit.asset),
    }
}

fn damage_figures(random: &mut Random, book: &mut Book) {
    let at = place(random, &book.units);
    let unit = &mut book.units[at];
    if unit.figures.is_empty() {
        return;
    }
    let at = place(random, &unit.figures);
    let figures = &mut unit.figures[at];
    match random.below(5) {
        0 => change(random, &mut figures.held),
        1 => change(random, &mut figures.raised),
        2 => change(random, &mut figures.lowered),
        3 => change(random, &mut figures.volume),
        _ => change(random, &mut figures.mark),
    }
}

fn damage_offer(random: &mut Random, book: &mut Book) {
    let at = place(random, &book.offers);
    let offer = &mut book.offers[at];
    match random.below(7) {
        0 => change(random, &mut offer.number),
        1 => change(random, &mut offer.unit),
        2 => change(random, &mut offer.partner),
        3 => change(random, &mut offer.price),
        4 => change(random, &mut offer.taken),
        5 => offer.amounts.fill(0),
        _ if offer.amounts.is_empty() => offer.amounts.push(1),
        _ => {
            let at = place(random, &offer.amounts);
            change(random, &mut offer.amounts[at]);
        }
    }
}

fn damage_order(random: &mut Random, book: &mut Book) {
    let at = place(random, &book.orders);
    let order = &mut book.orders[at];
    match random.below(6) {
        0 => change(random, &mut order.number),
        1 => change(random, &mut order.unit),
        2 => change(random, &mut order.direction),
        3 => change(random, &mut order.period),
        4 => change(random, &mut order.price),
        _ => change(random, &mut order.quantity),
    }
}

/// Adds, drops, doubles or swaps an item of a list.
fn damage_list(random: &mut Random, book: &mut Book) {
    // The book may be damaged already: its days and prices are not relied on.
    let periods = book.units.first().map_or(24, |unit| unit.figures.len().max(1));
    let unit = random.below(book.units.len() as u64 + 1);
    let number = book.given.saturating_add(random.below(2));
    let price = random.below(book.ceiling.min(MOST_PRICE) + 1);
    match random.below(9) {
        0 => book.units.truncate(book.units.len().saturating_sub(1)),
        1 => {
            let kind = random.below(6);
            book.units.push(Unit::fresh(kind, 9, 9, periods));
        }
        2 => {
            if let Some(unit) = book.units.last_mut() {
                unit.figures.pop();
            }
        }
        3 => {
            if let Some(unit) = book.units.last_mut() {
                unit.figures.push(Figures::default());
            }
        }
        4 => {
            let (direction, period) = (random.below(2), random.below(periods as u64));
            let order = Order { number, unit, direction, period, price, quantity: 1 };
            book.orders.push(order);
            book.given = number;
        }
        5 => {
            let mut amounts = vec![0; periods];
            amounts[random.below(periods as u64) as usize] = 1;
            let partner = random.below(book.units.len() as u64 + 1);
            book.offers.push(Offer { number, unit, partner, price, taken: 0, amounts });
            book.given = number;
        }
        6 => {
            if let Some(offer) = book.offers.last_mut() {
                offer.amounts.push(0);
            }
        }
        7 if book.orders.len() > 1 => {
            let (one, other) = (place(random, &book.orders), place(random, &book.orders));
            book.orders.swap(one, other);
        }
        _ => {
            if let Some(&order) = book.orders.last() {
                book.orders.push(order);
            }
        }
    }
}
