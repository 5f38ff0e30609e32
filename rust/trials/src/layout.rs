//! How the engine's memory holds a book, as crates/book/specs/Layout.antt has it.

use second::book::{Book, Figures, Offer, Order, Unit};
use second::limits::days_in_range;
use second::sound::sound;

/// The words of the book's own: days, floor, ceiling, phase, numbers given, the counts below, and the layout's number.
pub const DAYS: usize = 0;
pub const PHASE: usize = 3;
pub const GIVEN: usize = 4;
pub const UNIT_COUNT: usize = 5;
pub const OFFER_COUNT: usize = 6;
pub const ORDER_COUNT: usize = 7;
pub const LAYOUT: usize = 8;
/// The number of this layout.
pub const LAYOUT_NUMBER: u64 = 3_100_002;
/// Units, of which the first three words are read: kind, capacity, asset.
const UNITS: usize = 64;
const UNIT_WORDS: usize = 8;
pub const UNIT: usize = 3;
/// Offers, of which the first five words are read: number, unit, partner, taken, price.
const OFFERS: usize = 1_344;
const OFFER_WORDS: usize = 8;
pub const OFFER: usize = 5;
pub const TAKEN: usize = 3;
/// Orders of six: number, unit, direction, period, price, quantity.
const ORDERS: usize = 1_536;
pub const ORDER: usize = 6;
/// The amounts of each offer, by period.
const AMOUNTS: usize = 3_072;
const AMOUNT_WORDS: usize = 744;
/// The first day: of each unit five figures by hour.
const FIGURES: usize = 9_024;
const DAY_WORDS: usize = 7_704;
const HOURS: usize = 24;
/// Where each figure stands, from held energy.
pub const HELD: usize = 0;
pub const RAISED: usize = HOURS;
pub const LOWERED: usize = 2 * HOURS;
pub const MARK: usize = 3 * HOURS;
pub const VOLUME: usize = 4 * HOURS;
/// All five.
pub const EACH: [usize; 5] = [HELD, RAISED, LOWERED, MARK, VOLUME];

/// How many words a book of these days needs.
pub fn words(days: u64) -> usize {
    FIGURES + DAY_WORDS * days as usize
}

/// Where the unit at this place begins, from 0.
pub fn unit_at(place: usize) -> usize {
    UNITS + UNIT_WORDS * place
}

/// Where the offer at this place begins.
pub fn offer_at(place: usize) -> usize {
    OFFERS + OFFER_WORDS * place
}

/// Where the order at this place begins.
pub fn order_at(place: usize) -> usize {
    ORDERS + ORDER * place
}

/// Where the held energy of the unit at this place stands.
pub fn held_at(place: usize, period: usize) -> usize {
    FIGURES + DAY_WORDS * (period / HOURS) + EACH.len() * HOURS * place + period % HOURS
}

/// Where the amount of the offer at this place stands.
pub fn amount_at(place: usize, period: usize) -> usize {
    AMOUNTS + AMOUNT_WORDS * place + period
}

/// The book that memory holds; none if it is too short, if it has another layout's number, or if days or a count are out
/// of range, which no sound book's are.
pub fn decode(memory: &[u64]) -> Option<Book> {
    let &[days, floor, ceiling, phase, given, units, offers, orders, LAYOUT_NUMBER, ..] = memory
    else {
        return None;
    };
    let counted = |count: u64, most: usize| (count <= most as u64).then_some(count as usize);
    let units = counted(units, Unit::MOST)?;
    let offers = counted(offers, Offer::MOST)?;
    let orders = counted(orders, Order::MOST)?;
    if !days_in_range(days) || memory.len() < words(days) {
        return None;
    }
    let periods = HOURS * days as usize;
    Some(Book {
        days,
        floor,
        ceiling,
        phase,
        given,
        units: (0..units).map(|place| decode_unit(memory, place, periods)).collect(),
        offers: (0..offers).map(|place| decode_offer(memory, place, periods)).collect(),
        orders: memory[ORDERS..].chunks(ORDER).take(orders).map(decode_order).collect(),
    })
}

fn decode_unit(memory: &[u64], place: usize, periods: usize) -> Unit {
    let &[kind, capacity, asset] = &memory[unit_at(place)..][..UNIT] else { unreachable!() };
    let mut unit = Unit::fresh(kind, capacity, asset, periods);
    for (period, figures) in unit.figures.iter_mut().enumerate() {
        let at = held_at(place, period);
        let [held, raised, lowered, mark, volume] = EACH.map(|figure| memory[at + figure]);
        *figures = Figures { held, raised, lowered, volume, mark };
    }
    unit
}

fn decode_offer(memory: &[u64], place: usize, periods: usize) -> Offer {
    let fields = &memory[offer_at(place)..][..OFFER];
    let &[number, unit, partner, taken, price] = fields else { unreachable!() };
    let amounts = memory[amount_at(place, 0)..][..periods].to_vec();
    Offer { number, unit, partner, price, taken, amounts }
}

fn decode_order(words: &[u64]) -> Order {
    let &[number, unit, direction, period, price, quantity] = words else { unreachable!() };
    Order { number, unit, direction, period, price, quantity }
}

/// The sound book that memory holds, by the second engine's verdict.
pub fn sound_book(memory: &[u64]) -> Option<Book> {
    decode(memory).filter(sound)
}

/// Writes a book of the second engine's into memory of its length. What it doesn't say stays as it was.
pub fn encode(book: &Book, memory: &mut [u64]) {
    let counts = [book.units.len(), book.offers.len(), book.orders.len()];
    memory[..5].copy_from_slice(&[book.days, book.floor, book.ceiling, book.phase, book.given]);
    memory[5..8].copy_from_slice(&counts.map(|count| count as u64));
    memory[LAYOUT] = LAYOUT_NUMBER;
    for (place, unit) in book.units.iter().enumerate() {
        let fields = [unit.kind, unit.capacity, unit.asset];
        memory[unit_at(place)..][..UNIT].copy_from_slice(&fields);
        for (period, figures) in unit.figures.iter().enumerate() {
            let Figures { held, raised, lowered, volume, mark } = *figures;
            let at = held_at(place, period);
            for (figure, value) in EACH.into_iter().zip([held, raised, lowered, mark, volume]) {
                memory[at + figure] = value;
            }
        }
    }
    for (place, offer) in book.offers.iter().enumerate() {
        let Offer { number, unit, partner, price, taken, ref amounts } = *offer;
        memory[offer_at(place)..][..OFFER].copy_from_slice(&[number, unit, partner, taken, price]);
        memory[amount_at(place, 0)..][..amounts.len()].copy_from_slice(amounts);
    }
    for (place, order) in book.orders.iter().enumerate() {
        let Order { number, unit, direction, period, price, quantity } = *order;
        memory[order_at(place)..][..ORDER]
            .copy_from_slice(&[number, unit, direction, period, price, quantity]);
    }
}
