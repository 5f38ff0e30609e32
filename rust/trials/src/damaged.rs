//! Damaged books: one word of a sound book is another. The engine must refuse by 1 just where the second engine finds
//! the decoded book not sound, and else answer as the second engine does on that book.

use crate::engine::Trial;
use crate::layout::{
    amount_at, held_at, offer_at, order_at, sound_book, unit_at, words, EACH, LAYOUT, OFFER, ORDER,
    UNIT,
};
use crate::lists::{lend, name, Counts};
use crate::random::Random;
use second::book::{Book, Offer, Order, Unit, BUY, SELL};
use second::calls::{Call, POINTS_LENT, ROWS_LENT};
use second::generate::Generator;

/// Makes a call on a copy of the book with one word changed.
pub fn step(
    sound: &Trial,
    copy: &mut Trial,
    generator: &mut Generator,
    random: &mut Random,
    counts: &mut Counts,
) -> Result<(), String> {
    let call = if random.to(2) == 0 {
        generator.call(&sound.second)
    } else {
        each_in_turn(counts.damages()[0], &sound.second, random)
    };
    let (call, length) = lend(call, sound, random);
    let place = place(&sound.second, sound.memory.length(), random);
    let was = sound.memory.all()[place];
    // Looking for an edge asks for the verdict some 60 times: of long terms, seldom.
    let seek = random.to(7 * sound.second.days) == 0;
    let values = if seek { edge(sound, place, random) } else { None };
    counts.edges += values.map_or(0, |_| 2);
    for value in values.map_or_else(|| vec![other(was, random)], Vec::from) {
        copy.damage(sound, place, value);
        let unsound = copy.second.days == 0;
        let made = copy.call(&call, length, random);
        made.map_err(|fault| format!("{fault}: word {place} was {was}, is {value}, {call:?}"))?;
        let count = counts.damaged.entry(name(&call)).or_default();
        count[0] += 1;
        count[1] += u64::from(unsound);
    }
    Ok(())
}

/// A place in memory: of the head, of a unit, an offer, an order, of figures or amounts, or past the book. Most lie
/// within the counts.
fn place(book: &Book, length: usize, random: &mut Random) -> usize {
    let unit = one_of(book.units.len(), Unit::MOST, random);
    let offer = one_of(book.offers.len(), Offer::MOST, random);
    let order = one_of(book.orders.len(), Order::MOST, random);
    let period = random.to(book.periods() - 1) as usize;
    let within =
        |at: usize, size: usize, random: &mut Random| at + random.to(size as u64 - 1) as usize;
    let needed = words(book.days);
    match random.to(15) {
        0..=1 => within(0, LAYOUT + 1, random),
        2..=3 => within(unit_at(unit), UNIT, random),
        4..=5 => within(offer_at(offer), OFFER, random),
        6..=9 => within(order_at(order), ORDER, random),
        10..=12 => held_at(unit, period) + random.of(&EACH),
        13 => amount_at(offer, period),
        14 if length > needed => within(needed, length - needed, random),
        _ => within(0, needed, random),
    }
}

/// A place of a table: one that is counted, or now and then any.
fn one_of(count: usize, most: usize, random: &mut Random) -> usize {
    let places = if count == 0 || random.to(9) == 0 { most } else { count };
    random.to(places as u64 - 1) as usize
}

/// Another word: near it, at an end, a bit of it turned, or any.
fn other(was: u64, random: &mut Random) -> u64 {
    loop {
        let value = match random.to(9) {
            0 | 1 => was.wrapping_add(1),
            2 | 3 => was.wrapping_sub(1),
            4 => random.of(&[0, 1, 2, u64::MAX]),
            5 => was ^ 1 << random.to(63),
            6 => was ^ 1 << random.to(7),
            7 => random.to(70),
            8 => random.word() >> random.to(63),
            _ => random.word(),
        };
        if value != was {
            return value;
        }
    }
}

/// Two neighbouring values of a word, one with which the book is sound and one with which it is not.
fn edge(sound: &Trial, place: usize, random: &mut Random) -> Option<[u64; 2]> {
    let mut memory = sound.memory.all().to_vec();
    let mut with = |value: u64| {
        memory[place] = value;
        sound_book(&memory).is_some()
    };
    let mut inside = sound.memory.all()[place];
    let mut outside = random.of(&[0, u64::MAX]);
    if with(outside) {
        return None;
    }
    while inside.abs_diff(outside) > 1 {
        let middle = inside.min(outside) + inside.abs_diff(outside) / 2;
        if with(middle) {
            inside = middle;
        } else {
            outside = middle;
        }
    }
    Some([inside, outside])
}

/// Each of the nine calls in turn, which most sound books accept.
fn each_in_turn(turn: u64, book: &Book, random: &mut Random) -> Call {
    let unit = 1 + random.to(book.units.len().max(1) as u64 - 1);
    let period = random.to(book.periods() - 1);
    let price = book.floor + random.to(book.ceiling - book.floor);
    let (lent, quantity) = (ROWS_LENT, 1);
    match turn % 9 {
        0 => Call::Enrol { kind: 1 + random.to(3), capacity: 9, asset: 9 },
        1 => {
            let mut amounts = vec![0; book.periods() as usize];
            amounts[period as usize] = 1;
            Call::Offer { unit, partner: 0, price, amounts }
        }
        2 => match book.offers.first() {
            Some(offer) if offer.partner > 0 => {
                let (unit, number, quantity) = (offer.partner, offer.number, offer.total());
                Call::Take { unit, number, quantity, lent }
            }
            Some(offer) => Call::Take { unit, number: offer.number, quantity, lent },
            None => Call::Take { unit, number: 1, quantity, lent },
        },
        3 => match book.offers.last() {
            Some(offer) => Call::Withdraw { unit: offer.unit, number: offer.number },
            None => Call::Withdraw { unit, number: 1 },
        },
        4 => {
            let direction = random.of(&[SELL, BUY]);
            Call::Order { unit, direction, period, price, quantity, lent }
        }
        5 => match book.orders.last() {
            Some(order) => Call::Cancel { unit: order.unit, number: order.number },
            None => Call::Cancel { unit, number: 1 },
        },
        6 => Call::Clear { lent },
        7 => Call::Close,
        _ => Call::Curve { unit, day: period / 24, lent: POINTS_LENT },
    }
}
