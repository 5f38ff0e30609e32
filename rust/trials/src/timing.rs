//! Times a call of the engine, of the second engine and a plain read of the book's memory, on the same book.

use crate::engine::answer;
use crate::exported;
use crate::layout::{decode, encode, words};
use cenduxari::lent::ROWS_WORDS;
use second::book::Book;
use second::calls::Call;
use std::hint::black_box;
use std::time::{Duration, Instant};

/// The fewest rounds, and the shortest time for them all.
const ROUNDS: usize = 50;
const TIME: Duration = Duration::from_millis(40);

/// The least times of a call over all rounds, in microseconds.
#[derive(Clone, Copy, Debug)]
pub struct Times {
    pub engine: f64,
    pub second: f64,
    /// One plain read of the memory that the book needs.
    pub floor: f64,
    /// The rows of the call.
    pub rows: u64,
}

impl Times {
    /// The lesser of each.
    pub fn least(self, other: Times) -> Times {
        Times {
            engine: self.engine.min(other.engine),
            second: self.second.min(other.second),
            floor: self.floor.min(other.floor),
            rows: self.rows,
        }
    }
}

/// Times a call on a sound book. Each round restores the book outside of what is timed, and the three take turns in
/// going first.
pub fn times(book: &Book, call: &Call) -> Times {
    let mut memory = vec![0; words(book.days)];
    encode(book, &mut memory);
    let mut copy = memory.clone();
    let mut rows = vec![0; ROWS_WORDS];
    let lent = if matches!(call, Call::Curve { .. }) { 48 } else { ROWS_WORDS };
    let rows = &mut rows[..lent];
    let count = same(book, call, &mut copy, rows);
    let mut least = [Duration::MAX; 3];
    let start = Instant::now();
    for round in 0.. {
        if round >= 3 * ROUNDS && start.elapsed() > TIME {
            break;
        }
        let which = (round + round / 3) % 3;
        let spent = if which == 1 {
            let mut book = book.clone();
            spent(|| book.make(black_box(call)))
        } else {
            copy.copy_from_slice(&memory);
            match which {
                0 => spent(|| exported::make(black_box(call), &mut copy, rows)),
                _ => spent(|| read(black_box(&copy))),
            }
        };
        least[which] = least[which].min(spent);
    }
    let [engine, second, floor] = least.map(|time| time.as_nanos() as f64 / 1_000.0);
    Times { engine, second, floor, rows: count }
}

/// How long it takes; what it gives is dropped later.
fn spent<T>(what: impl FnOnce() -> T) -> Duration {
    let start = Instant::now();
    let given = black_box(what());
    let spent = start.elapsed();
    drop(given);
    spent
}

/// The sum of all words.
#[inline(never)]
fn read(memory: &[u64]) -> u64 {
    // In lanes, and never inlined: else what the loop costs hangs on where it stands.
    let mut lanes = [0u64; 16];
    let chunks = memory.chunks_exact(lanes.len());
    let rest = chunks.remainder();
    for chunk in chunks {
        for (lane, word) in lanes.iter_mut().zip(chunk) {
            *lane = lane.wrapping_add(*word);
        }
    }
    lanes.iter().chain(rest).fold(0, |sum, &word| sum.wrapping_add(word))
}

/// Both engines answer the same and leave the same book; gives the count of rows.
fn same(book: &Book, call: &Call, memory: &mut [u64], rows: &mut [u64]) -> u64 {
    let mut after = book.clone();
    let (expected, written) = answer(&mut after, call);
    assert_eq!(exported::make(call, memory, rows), expected, "{call:?}");
    assert_eq!(rows[..written.len()], written);
    assert_eq!(decode(memory), Some(after));
    expected.count
}
