//! The exported functions themselves, with no safe crate between.

use crate::engine::Told;
use crate::limits::Asked;
// The crate that links them.
use cenduxari as _;
use second::calls::Call;

#[path = "../../cenduxari/src/sys.rs"]
mod sys;
use sys::*;

// SAFETY of each call below: every slice and array is one that Rust lends, and no function has a `requires`.

/// `cenduxari_share`.
pub fn share(amount: u64, amounts: &[u64], parts: &mut [u64]) -> u64 {
    unsafe {
        cenduxari_share(amount, amounts.as_ptr(), amounts.len(), parts.as_mut_ptr(), parts.len())
    }
}

/// `cenduxari_limits`.
pub fn limits([days, kind, capacity, asset, period]: Asked, out: &mut [u64; 3]) -> u64 {
    unsafe { cenduxari_limits(days, kind, capacity, asset, period, out) }
}

/// `cenduxari_book_words`.
pub fn book_words(days: u64) -> u64 {
    unsafe { cenduxari_book_words(days) }
}

/// The engine's number and count of rows, between two guard words.
#[repr(C)]
struct Out {
    before: u64,
    out: [u64; 2],
    after: u64,
}

/// What a call tells; it must write both numbers and nothing beside them.
fn told(call: impl FnOnce(&mut [u64; 2]) -> u64) -> Told {
    const GUARD: u64 = 0x5eed_5eed_5eed_5eed;
    let mut memory = Out { before: GUARD, out: [GUARD; 2], after: GUARD };
    let refusal = call(&mut memory.out);
    assert_eq!((memory.before, memory.after), (GUARD, GUARD), "a word beside `out` changed");
    let [number, count] = memory.out;
    Told { refusal, number, count }
}

/// The exported call on a book's memory, with the rows or points lent.
pub fn make(call: &Call, book: &mut [u64], lent: &mut [u64]) -> Told {
    let (memory, words) = (book.as_mut_ptr(), book.len());
    let (rows, length) = (lent.as_mut_ptr(), lent.len());
    match *call {
        Call::Open { days, floor, ceiling, .. } => {
            told(|out| unsafe { cenduxari_open(memory, words, days, floor, ceiling, out) })
        }
        Call::Enrol { kind, capacity, asset } => {
            told(|out| unsafe { cenduxari_enrol(memory, words, kind, capacity, asset, out) })
        }
        Call::Offer { unit, partner, price, ref amounts } => told(|out| unsafe {
            let (list, periods) = (amounts.as_ptr(), amounts.len());
            cenduxari_offer(memory, words, unit, partner, price, list, periods, out)
        }),
        Call::Take { unit, number, quantity, .. } => told(|out| unsafe {
            cenduxari_take(memory, words, unit, number, quantity, rows, length, out)
        }),
        Call::Withdraw { unit, number } => {
            told(|out| unsafe { cenduxari_withdraw(memory, words, unit, number, out) })
        }
        Call::Order { unit, direction, period, price, quantity, .. } => told(|out| unsafe {
            cenduxari_order(
                memory, words, unit, direction, period, price, quantity, rows, length, out,
            )
        }),
        Call::Cancel { unit, number } => {
            told(|out| unsafe { cenduxari_cancel(memory, words, unit, number, out) })
        }
        Call::Clear { .. } => {
            told(|out| unsafe { cenduxari_clear(memory, words, rows, length, out) })
        }
        Call::Close => told(|out| unsafe { cenduxari_close(memory, words, out) }),
        Call::Curve { unit, day, .. } => {
            told(|out| unsafe { cenduxari_curve(memory, words, unit, day, rows, length, out) })
        }
    }
}
