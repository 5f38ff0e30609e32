//! The calls on memory that the caller lends, in plain numbers.
//!
//! [`Book`](crate::Book) owns its memory and is what most programs want. Here the memory is a slice that may hold
//! anything: each call answers for every content and every argument. One that holds no sound book is refused by
//! [`Refusal::UnsoundBook`]. Words past those that the book needs are never changed, nor are words of `rows` past the
//! rows that are counted. A refusal changes nothing.
//!
//! ```
//! use cenduxari::{lent, Refusal};
//!
//! let mut memory = vec![0; lent::words(1).unwrap()];
//! assert_eq!(lent::enrol(&mut memory, 2, 100, 0), Err(Refusal::UnsoundBook));
//! lent::open(&mut memory, 1, 0, 1_000_000)?;
//! assert_eq!(lent::enrol(&mut memory, 2, 100, 0), Ok(1));
//! assert_eq!(lent::enrol(&mut memory, 5, 100, 0), Err(Refusal::Kind));
//! # Ok::<(), Refusal>(())
//! ```

// Each `unsafe` below is a call of the proved library. SAFETY: every slice and array is one that Rust lends, so its
// pointer is aligned and not null, and what is written overlaps nothing. No function has a `requires`.

use crate::refusal::{outcome, Refusal};
use crate::sys;

/// How many words the rows of a call need: 744 rows of six.
pub const ROWS_WORDS: usize = 744 * 6;

/// How many points a curve has.
pub const POINTS: usize = 48;

/// How many words a book of these days needs, or none if the days are not 1 to 31.
pub fn words(days: u64) -> Option<usize> {
    let words = unsafe { sys::cenduxari_book_words(days) };
    (words != 0).then_some(words as usize)
}

/// What a call hands over: its number and its count of rows.
fn told(call: impl FnOnce(&mut [u64; 2]) -> u64) -> Result<(u64, usize), Refusal> {
    let mut out = [0; 2];
    outcome(call(&mut out))?;
    Ok((out[0], out[1] as usize))
}

/// The same of a call that gives neither.
fn done(call: impl FnOnce(&mut [u64; 2]) -> u64) -> Result<(), Refusal> {
    told(call).map(|_| ())
}

/// Opens a book in this memory, whatever it held: [`Book::open`](crate::Book::open).
pub fn open(book: &mut [u64], days: u64, floor: u64, ceiling: u64) -> Result<(), Refusal> {
    let (memory, len) = (book.as_mut_ptr(), book.len());
    done(|out| unsafe { sys::cenduxari_open(memory, len, days, floor, ceiling, out) })
}

/// Adds a unit and gives its number: [`Book::enrol`](crate::Book::enrol).
pub fn enrol(book: &mut [u64], kind: u64, capacity: u64, asset: u64) -> Result<u64, Refusal> {
    let (memory, len) = (book.as_mut_ptr(), book.len());
    let (number, _) =
        told(|out| unsafe { sys::cenduxari_enrol(memory, len, kind, capacity, asset, out) })?;
    Ok(number)
}

/// Offers an amount for each period, to a partner or, with 0, as a listing: [`Book::offer`](crate::Book::offer).
pub fn offer(
    book: &mut [u64],
    unit: u64,
    partner: u64,
    price: u64,
    amounts: &[u64],
) -> Result<u64, Refusal> {
    let (memory, len) = (book.as_mut_ptr(), book.len());
    let (list, count) = (amounts.as_ptr(), amounts.len());
    let (number, _) = told(|out| unsafe {
        sys::cenduxari_offer(memory, len, unit, partner, price, list, count, out)
    })?;
    Ok(number)
}

/// Takes from an offer and gives the count of rows: [`Book::take`](crate::Book::take).
pub fn take(
    book: &mut [u64],
    unit: u64,
    number: u64,
    quantity: u64,
    rows: &mut [u64],
) -> Result<usize, Refusal> {
    let (memory, len) = (book.as_mut_ptr(), book.len());
    let (lent, words) = (rows.as_mut_ptr(), rows.len());
    let (_, count) = told(|out| unsafe {
        sys::cenduxari_take(memory, len, unit, number, quantity, lent, words, out)
    })?;
    Ok(count)
}

/// Removes an own offer of which nothing is taken: [`Book::withdraw`](crate::Book::withdraw).
pub fn withdraw(book: &mut [u64], unit: u64, number: u64) -> Result<(), Refusal> {
    let (memory, len) = (book.as_mut_ptr(), book.len());
    done(|out| unsafe { sys::cenduxari_withdraw(memory, len, unit, number, out) })
}

/// Orders a quantity of a period and gives the number and the count of rows: [`Book::order`](crate::Book::order).
pub fn order(
    book: &mut [u64],
    unit: u64,
    direction: u64,
    period: u64,
    price: u64,
    quantity: u64,
    rows: &mut [u64],
) -> Result<(u64, usize), Refusal> {
    let (memory, len) = (book.as_mut_ptr(), book.len());
    let (lent, words) = (rows.as_mut_ptr(), rows.len());
    told(|out| unsafe {
        sys::cenduxari_order(
            memory, len, unit, direction, period, price, quantity, lent, words, out,
        )
    })
}

/// Removes what is left of an own order: [`Book::cancel`](crate::Book::cancel).
pub fn cancel(book: &mut [u64], unit: u64, number: u64) -> Result<(), Refusal> {
    let (memory, len) = (book.as_mut_ptr(), book.len());
    done(|out| unsafe { sys::cenduxari_cancel(memory, len, unit, number, out) })
}

/// Clears each period and gives the count of rows: [`Book::clear`](crate::Book::clear).
pub fn clear(book: &mut [u64], rows: &mut [u64]) -> Result<usize, Refusal> {
    let (memory, len) = (book.as_mut_ptr(), book.len());
    let (lent, words) = (rows.as_mut_ptr(), rows.len());
    let (_, count) = told(|out| unsafe { sys::cenduxari_clear(memory, len, lent, words, out) })?;
    Ok(count)
}

/// Closes the day: [`Book::close`](crate::Book::close).
pub fn close(book: &mut [u64]) -> Result<(), Refusal> {
    let (memory, len) = (book.as_mut_ptr(), book.len());
    done(|out| unsafe { sys::cenduxari_close(memory, len, out) })
}

/// Writes the 48 points of a unit on a day: [`Book::curve`](crate::Book::curve). Points past the 48 are kept.
pub fn curve(book: &[u64], unit: u64, day: u64, points: &mut [u64]) -> Result<(), Refusal> {
    let (memory, len) = (book.as_ptr(), book.len());
    let (lent, words) = (points.as_mut_ptr(), points.len());
    done(|out| unsafe { sys::cenduxari_curve(memory, len, unit, day, lent, words, out) })
}
