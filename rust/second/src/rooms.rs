//! The room that a sound book's limits leave to a unit: it lets the generator draw amounts that
//! just fit or just do not. Paper: "Limits".

use crate::book::{Book, Unit};
use crate::fits::Open;
use crate::limits::{hour_limit, term_limit, volume_limit};

/// What an order of this direction could still declare.
pub fn room(book: &Book, unit: u64, direction: u64, period: u64) -> u64 {
    let open = Open::of(book, unit);
    let (term, volume) = term_rooms(book, book.unit(unit), &open);
    let hour = hour_room(book, unit, direction, period);
    if book.unit(unit).raises(direction) {
        hour.min(term).min(volume)
    } else {
        hour.min(volume)
    }
}

/// What the hour alone leaves to an order of this direction.
pub fn hour_room(book: &Book, unit: u64, direction: u64, period: u64) -> u64 {
    let open = Open::of(book, unit);
    let unit = book.unit(unit);
    let figures = &unit.figures[period as usize];
    if unit.raises(direction) {
        let hour = hour_limit(unit.kind, unit.capacity, period % 24);
        hour - figures.held - figures.raised - open.raising[period as usize]
    } else {
        figures.held - figures.lowered - open.lowering[period as usize]
    }
}

/// The room of each hour for raising.
pub fn hour_rooms(book: &Book, unit: u64) -> Vec<u64> {
    let open = Open::of(book, unit);
    let unit = book.unit(unit);
    let rooms = unit.figures.iter().enumerate().map(|(period, figures)| {
        let hour = hour_limit(unit.kind, unit.capacity, period as u64 % 24);
        hour - figures.held - figures.raised - open.raising[period]
    });
    rooms.collect()
}

/// The room that the term limit and the volume limit leave.
fn term_rooms(book: &Book, unit: &Unit, open: &Open) -> (u64, u64) {
    let mut term = 0;
    let mut volume = 0;
    for (period, figures) in unit.figures.iter().enumerate() {
        term += figures.held + figures.raised + open.raising[period];
        volume += figures.volume + open.raising[period] + open.lowering[period];
    }
    let limit = term_limit(book.days, unit.kind, unit.capacity, unit.asset);
    (limit - term, volume_limit(unit.kind, limit) - volume)
}
