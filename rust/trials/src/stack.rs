//! The stack that a call of the engine needs: how far down a thread's stack, marked before the call, words are others after it.

use crate::exported;
use crate::layout::{encode, words};
use cenduxari::lent::ROWS_WORDS;
use second::book::Book;
use second::calls::Call;
use std::hint::black_box;
use std::thread;

/// The words below a frame that are marked, in a stack that has room for many more.
const MARKED: std::ops::Range<usize> = 64..1 << 15;
const STACK: usize = 1 << 20;
const MARK: u64 = 0x5eed_5eed_5eed_5eed;

/// The bytes of stack that a call on a book needs; 0 for less than 512.
pub fn stack_of(book: Book, call: Call) -> usize {
    let run = move || deepest(&book, &call);
    thread::Builder::new().stack_size(STACK).spawn(run).unwrap().join().unwrap()
}

fn deepest(book: &Book, call: &Call) -> usize {
    let mut memory = vec![0; words(book.days)];
    encode(book, &mut memory);
    let mut rows = vec![0; ROWS_WORDS];
    let lent = if matches!(call, Call::Curve { .. }) { 48 } else { ROWS_WORDS };
    let here = 0_u64;
    let top: *const u64 = black_box(&here);
    mark(top.cast_mut());
    black_box(exported::make(call, &mut memory, &mut rows[..lent]));
    // SAFETY: the stack has room for more words than are marked.
    let changed = |&word: &usize| unsafe { top.sub(word).read_volatile() } != MARK;
    8 * MARKED.rev().find(changed).unwrap_or(0)
}

/// Marks the words below a frame.
#[inline(never)]
fn mark(top: *mut u64) {
    for word in MARKED {
        // SAFETY: the stack has room for more words than are marked, and this frame ends above the first of them.
        unsafe { top.sub(word).write_volatile(MARK) };
    }
}
