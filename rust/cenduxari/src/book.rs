//! A book that owns its memory.

use crate::curve::Curve;
use crate::kinds::{Direction, Kind};
use crate::lent;
use crate::refusal::Refusal;
use crate::rows::{Ordered, Rows};
use std::fmt;

/// The book of a term: its units, what they declared and traded, and their positions.
///
/// Units are numbered from 1 as they are enrolled. Offers and orders get the next number of the day, from 1, in one
/// series. A period is an hour of the term, from 0. Energy is in whole kWh, a price in thousandths of a yuan per MWh.
///
/// A call that is turned down returns the first [`Refusal`] that applies, in rising number, and changes nothing.
///
/// ```
/// use cenduxari::{Book, Direction, Kind, Refusal, Row, Way};
///
/// let mut book = Book::open(1, 0, 1_000_000)?;
/// let plant = book.enrol(Kind::Generator, 100, 0)?;
/// let mill = book.enrol(Kind::WholesaleUser, 100, 0)?;
/// book.clear()?;
/// book.order(plant, Direction::Sell, 8, 455_000, 5)?;
/// let bought = book.order(mill, Direction::Buy, 8, 460_000, 7)?;
/// let rows: Vec<Row> = bought.rows.collect();
/// let (way, period, quantity, price) = (Way::Rolling, 8, 5, 455_000);
/// assert_eq!(rows, [Row { way, period, seller: plant, buyer: mill, quantity, price }]);
/// assert_eq!(book.curve(mill, 0)?.net(8), 5);
/// # Ok::<(), Refusal>(())
/// ```
#[derive(Clone)]
pub struct Book {
    /// A sound book, as opening and the calls leave it.
    memory: Vec<u64>,
    /// What is lent for the rows of a call.
    rows: Vec<u64>,
}

impl Book {
    /// Opens the book of a term of 1 to 31 days, on its first trading day and in the call phase.
    ///
    /// # Errors
    ///
    /// [`Refusal::DaysOrPrices`] unless the days are 1 to 31 and `floor` ≤ `ceiling` ≤ 10,000,000.
    pub fn open(days: u64, floor: u64, ceiling: u64) -> Result<Book, Refusal> {
        let mut memory = vec![0; lent::words(days).unwrap_or(0)];
        lent::open(&mut memory, days, floor, ceiling)?;
        Ok(Book { memory, rows: vec![0; lent::ROWS_WORDS] })
    }

    /// The book that these words hold, as [`Book::words`] gave them.
    ///
    /// # Errors
    ///
    /// [`Refusal::UnsoundBook`] if they are too few or hold no sound book, or if a version gave them that lays memory out
    /// otherwise.
    pub fn resume(words: Vec<u64>) -> Result<Book, Refusal> {
        // There is no unit 0, so of a sound book this is refused by another number than 1.
        match lent::curve(&words, 0, 0, &mut []) {
            Err(Refusal::UnsoundBook) => Err(Refusal::UnsoundBook),
            _ => Ok(Book { memory: words, rows: vec![0; lent::ROWS_WORDS] }),
        }
    }

    /// The words of the book, to be kept and resumed from.
    pub fn words(&self) -> &[u64] {
        &self.memory
    }

    /// Adds a unit and gives its number.
    ///
    /// `capacity` is 1 to 5,000,000 kW and `asset` 0 to 4,000,000,000 kWh. A retailer's asset energy limits its term;
    /// the other kinds carry it unused.
    ///
    /// # Errors
    ///
    /// [`Refusal::CapacityOrAsset`] or [`Refusal::UnitsFull`].
    pub fn enrol(&mut self, kind: Kind, capacity: u64, asset: u64) -> Result<u64, Refusal> {
        lent::enrol(&mut self.memory, kind.number(), capacity, asset)
    }

    /// Offers an amount for each period of the term and gives the offer's number.
    ///
    /// With no partner it is a listing: generators sell, loads buy. With a partner it is bilateral: a generator offers
    /// to that load. At most 8 stand open.
    ///
    /// # Errors
    ///
    /// [`Refusal::UnknownUnit`], [`Refusal::Price`], [`Refusal::Energy`], [`Refusal::Party`], [`Refusal::TableFull`],
    /// [`Refusal::NumbersUsed`], [`Refusal::HourLimit`], [`Refusal::TermLimit`] or [`Refusal::VolumeLimit`].
    pub fn offer(
        &mut self,
        unit: u64,
        partner: Option<u64>,
        price: u64,
        amounts: &[u64],
    ) -> Result<u64, Refusal> {
        let partner = match partner {
            None => 0,
            Some(0) => return Err(Refusal::UnknownUnit),
            Some(partner) => partner,
        };
        lent::offer(&mut self.memory, unit, partner, price, amounts)
    }

    /// Takes from an offer and gives a row for each period that has a part, periods rising.
    ///
    /// A bilateral offer is taken by its partner, for exactly its total. A listing is taken by a unit of the other side,
    /// for 1 up to its remainder, shared over its remaining amounts as [`share`](crate::share) does.
    ///
    /// # Errors
    ///
    /// [`Refusal::UnknownUnit`], [`Refusal::Energy`], [`Refusal::Number`], [`Refusal::Party`],
    /// [`Refusal::HourLimit`], [`Refusal::TermLimit`] or [`Refusal::VolumeLimit`].
    pub fn take(&mut self, unit: u64, number: u64, quantity: u64) -> Result<Rows<'_>, Refusal> {
        let count = lent::take(&mut self.memory, unit, number, quantity, &mut self.rows)?;
        Ok(Rows::new(&self.rows, count))
    }

    /// Removes an own offer of which nothing is taken.
    ///
    /// # Errors
    ///
    /// [`Refusal::UnknownUnit`], [`Refusal::Number`] or [`Refusal::AlreadyTaken`].
    pub fn withdraw(&mut self, unit: u64, number: u64) -> Result<(), Refusal> {
        lent::withdraw(&mut self.memory, unit, number)
    }

    /// Orders a quantity of a period.
    ///
    /// In the call phase it waits. In the rolling phase it meets opposite orders of its period, best price first, then
    /// lowest number, each at the waiting order's price; the rest waits. At most 256 stand open; one that trades whole
    /// needs no place.
    ///
    /// # Errors
    ///
    /// [`Refusal::UnknownUnit`], [`Refusal::Price`], [`Refusal::Energy`], [`Refusal::Period`],
    /// [`Refusal::OtherDirection`], [`Refusal::TwoOpen`], [`Refusal::TableFull`], [`Refusal::NumbersUsed`],
    /// [`Refusal::HourLimit`], [`Refusal::TermLimit`] or [`Refusal::VolumeLimit`].
    pub fn order(
        &mut self,
        unit: u64,
        direction: Direction,
        period: u64,
        price: u64,
        quantity: u64,
    ) -> Result<Ordered<'_>, Refusal> {
        let (number, count) = lent::order(
            &mut self.memory,
            unit,
            direction.number(),
            period,
            price,
            quantity,
            &mut self.rows,
        )?;
        Ok(Ordered { number, rows: Rows::new(&self.rows, count) })
    }

    /// Removes what is left of an own order.
    ///
    /// # Errors
    ///
    /// [`Refusal::UnknownUnit`] or [`Refusal::Number`].
    pub fn cancel(&mut self, unit: u64, number: u64) -> Result<(), Refusal> {
        lent::cancel(&mut self.memory, unit, number)
    }

    /// Clears each period at one price, periods rising, and begins the rolling phase.
    ///
    /// # Errors
    ///
    /// [`Refusal::RollingPhase`] if it has begun already.
    pub fn clear(&mut self) -> Result<Rows<'_>, Refusal> {
        let count = lent::clear(&mut self.memory, &mut self.rows)?;
        Ok(Rows::new(&self.rows, count))
    }

    /// Closes the day: what is open lapses, held becomes net, numbers restart, and the call phase begins.
    ///
    /// # Errors
    ///
    /// None: the book is always sound. The call can refuse, so it says so.
    pub fn close(&mut self) -> Result<(), Refusal> {
        lent::close(&mut self.memory)
    }

    /// The 48 half hours of a unit on a day of the term, from 0.
    ///
    /// # Errors
    ///
    /// [`Refusal::UnknownUnit`] or [`Refusal::Period`].
    pub fn curve(&self, unit: u64, day: u64) -> Result<Curve, Refusal> {
        let mut points = [0; lent::POINTS];
        lent::curve(&self.memory, unit, day, &mut points)?;
        Ok(Curve { points })
    }
}

impl fmt::Debug for Book {
    fn fmt(&self, f: &mut fmt::Formatter<'_>) -> fmt::Result {
        f.debug_struct("Book").field("words", &self.memory.len()).finish_non_exhaustive()
    }
}
