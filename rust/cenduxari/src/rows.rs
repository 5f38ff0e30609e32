//! The rows of a call: the trades that it made.

use crate::kinds::Way;
use std::iter::FusedIterator;
use std::slice::ChunksExact;

/// A trade.
#[derive(Clone, Copy, Debug, PartialEq, Eq, Hash)]
pub struct Row {
    /// How it came about.
    pub way: Way,
    /// The period, from 0 to 24 × the days less 1.
    pub period: u64,
    /// The unit that sold.
    pub seller: u64,
    /// The unit that bought.
    pub buyer: u64,
    /// The quantity in kWh.
    pub quantity: u64,
    /// The price in thousandths of a yuan per MWh.
    pub price: u64,
}

impl Row {
    /// How many words a row has.
    pub(crate) const WORDS: usize = 6;

    fn of(words: &[u64]) -> Row {
        Row {
            way: Way::of(words[0]),
            period: words[1],
            seller: words[2],
            buyer: words[3],
            quantity: words[4],
            price: words[5],
        }
    }
}

/// The rows of a call, one after the other. They stand in the book's own memory until its next call.
#[derive(Clone, Debug)]
pub struct Rows<'b>(ChunksExact<'b, u64>);

impl<'b> Rows<'b> {
    pub(crate) fn new(words: &'b [u64], count: usize) -> Rows<'b> {
        Rows(words[..count * Row::WORDS].chunks_exact(Row::WORDS))
    }
}

impl Iterator for Rows<'_> {
    type Item = Row;

    fn next(&mut self) -> Option<Row> {
        self.0.next().map(Row::of)
    }

    fn size_hint(&self) -> (usize, Option<usize>) {
        self.0.size_hint()
    }
}

impl ExactSizeIterator for Rows<'_> {}

impl FusedIterator for Rows<'_> {}

/// What an accepted order comes to.
#[derive(Clone, Debug)]
pub struct Ordered<'b> {
    /// Its number of the day, by which what is left of it can be cancelled.
    pub number: u64,
    /// What it traded at once.
    pub rows: Rows<'b>,
}
