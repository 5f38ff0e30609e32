//! Replay lines: a text with one call a line, and the answers to it.
//!
//! Fields stand one space apart; numbers are unsigned, in base ten, below 2^64.
//!
//! | Line | Call |
//! |---|---|
//! | `O days floor ceiling` | open, anew where a book stands |
//! | `E kind capacity asset` | enrol |
//! | `L unit partner price amounts` | offer, with any count of amounts |
//! | `T unit number quantity` | take |
//! | `W unit number` | withdraw |
//! | `R unit direction period price quantity` | order |
//! | `X unit number` | cancel |
//! | `C` | clear |
//! | `D` | close the day |
//! | `V unit day` | curve |
//! | `N rows` | lends so many rows from now on, and so many numbers to a curve |
//!
//! A line gives `ok` and the call's number, then `t` and the six fields of each row, or after `V` a line `c` with the 48
//! points. A refused call gives `no` and the refusal; one that is not understood, or that comes before an accepted `O`,
//! gives `no 0`.

use crate::lent::{self, POINTS, ROWS_WORDS};
use crate::refusal::Refusal;
use crate::rows::Row;
use std::io::{self, BufRead, Write};

/// The number of a line that is not understood, or the refusal's.
struct No(u64);

const NOT_UNDERSTOOD: No = No(0);

impl From<Refusal> for No {
    fn from(refusal: Refusal) -> No {
        No(refusal.number())
    }
}

/// What a call answers to the fields past its letter.
type Call = fn(&mut Replay, &[&[u8]]) -> Result<String, No>;

/// Each letter with its call.
const CALLS: [(&[u8], Call); 11] = [
    (b"O", Replay::open),
    (b"E", Replay::enrol),
    (b"L", Replay::offer),
    (b"T", Replay::take),
    (b"W", Replay::withdraw),
    (b"R", Replay::order),
    (b"X", Replay::cancel),
    (b"C", Replay::clear),
    (b"D", Replay::close),
    (b"V", Replay::curve),
    (b"N", Replay::lend),
];

/// The letters that are answered before an accepted opening.
const AT_ONCE: [&[u8]; 2] = [b"O", b"N"];

/// Answers lines over a book of its own.
struct Replay {
    /// The book of the last accepted opening; empty before it.
    book: Vec<u64>,
    /// What rows and points are lent from.
    rows: Vec<u64>,
    /// How many rows are lent, and numbers to a curve. More than a call can need are as good as what it needs.
    lent: u64,
}

impl Replay {
    /// No book stands, and as many rows are lent as a call can need.
    fn new() -> Replay {
        Replay { book: Vec::new(), rows: vec![0; ROWS_WORDS], lent: u64::MAX }
    }

    /// The answer to a line, which is given without its line feed.
    fn answer(&mut self, line: &[u8]) -> String {
        self.said(line).unwrap_or_else(|No(number)| format!("no {number}\n"))
    }

    fn said(&mut self, line: &[u8]) -> Result<String, No> {
        let fields: Vec<&[u8]> = line.split(|&byte| byte == b' ').collect();
        let (letter, fields) = fields.split_first().ok_or(NOT_UNDERSTOOD)?;
        let (_, call) = CALLS.iter().find(|(known, _)| known == letter).ok_or(NOT_UNDERSTOOD)?;
        if self.book.is_empty() && !AT_ONCE.contains(letter) {
            return Err(NOT_UNDERSTOOD);
        }
        call(self, fields)
    }

    fn open(&mut self, fields: &[&[u8]]) -> Result<String, No> {
        let [days, floor, ceiling] = numbers(fields)?;
        let mut book = vec![0; lent::words(days).unwrap_or(0)];
        lent::open(&mut book, days, floor, ceiling)?;
        self.book = book;
        Ok(ok(0))
    }

    fn enrol(&mut self, fields: &[&[u8]]) -> Result<String, No> {
        let [kind, capacity, asset] = numbers(fields)?;
        Ok(ok(lent::enrol(&mut self.book, kind, capacity, asset)?))
    }

    fn offer(&mut self, fields: &[&[u8]]) -> Result<String, No> {
        let numbers = list(fields)?;
        let [unit, partner, price, ref amounts @ ..] = numbers[..] else {
            return Err(NOT_UNDERSTOOD);
        };
        Ok(ok(lent::offer(&mut self.book, unit, partner, price, amounts)?))
    }

    fn take(&mut self, fields: &[&[u8]]) -> Result<String, No> {
        let [unit, number, quantity] = numbers(fields)?;
        let lent = self.rows_lent();
        let count = lent::take(&mut self.book, unit, number, quantity, &mut self.rows[..lent])?;
        Ok(self.traded(0, count))
    }

    fn withdraw(&mut self, fields: &[&[u8]]) -> Result<String, No> {
        let [unit, number] = numbers(fields)?;
        lent::withdraw(&mut self.book, unit, number)?;
        Ok(ok(0))
    }

    fn order(&mut self, fields: &[&[u8]]) -> Result<String, No> {
        let [unit, direction, period, price, quantity] = numbers(fields)?;
        let lent = self.rows_lent();
        let (book, rows) = (&mut self.book, &mut self.rows[..lent]);
        let (number, count) = lent::order(book, unit, direction, period, price, quantity, rows)?;
        Ok(self.traded(number, count))
    }

    fn cancel(&mut self, fields: &[&[u8]]) -> Result<String, No> {
        let [unit, number] = numbers(fields)?;
        lent::cancel(&mut self.book, unit, number)?;
        Ok(ok(0))
    }

    fn clear(&mut self, fields: &[&[u8]]) -> Result<String, No> {
        let [] = numbers(fields)?;
        let lent = self.rows_lent();
        let count = lent::clear(&mut self.book, &mut self.rows[..lent])?;
        Ok(self.traded(0, count))
    }

    fn close(&mut self, fields: &[&[u8]]) -> Result<String, No> {
        let [] = numbers(fields)?;
        lent::close(&mut self.book)?;
        Ok(ok(0))
    }

    fn curve(&mut self, fields: &[&[u8]]) -> Result<String, No> {
        let [unit, day] = numbers(fields)?;
        let points = &mut self.rows[..self.lent.min(POINTS as u64) as usize];
        lent::curve(&self.book, unit, day, points)?;
        Ok(ok(0) + &line("c", points))
    }

    fn lend(&mut self, fields: &[&[u8]]) -> Result<String, No> {
        [self.lent] = numbers(fields)?;
        Ok(ok(0))
    }

    /// How many words of rows are lent.
    fn rows_lent(&self) -> usize {
        self.lent.saturating_mul(Row::WORDS as u64).min(ROWS_WORDS as u64) as usize
    }

    /// The answer with a call's number and its rows.
    fn traded(&self, number: u64, count: usize) -> String {
        let rows = self.rows.chunks_exact(Row::WORDS).take(count);
        rows.fold(ok(number), |said, row| said + &line("t", row))
    }
}

/// Answers each line of the input, the last one too where no line feed ends it.
///
/// ```
/// let mut said = Vec::new();
/// cenduxari::replay::replay(&b"O 1 0 1000000\nE 2 100 0\nR 1 0 8 455000 101\n"[..], &mut said)?;
/// assert_eq!(said, b"ok 0\nok 1\nno 19\n");
/// # Ok::<(), std::io::Error>(())
/// ```
///
/// # Errors
///
/// Where the input can't be read or the output can't be written.
pub fn replay(mut input: impl BufRead, mut output: impl Write) -> io::Result<()> {
    let mut replay = Replay::new();
    let mut line = Vec::new();
    while input.read_until(b'\n', &mut line)? > 0 {
        let said = replay.answer(line.strip_suffix(b"\n").unwrap_or(&line));
        output.write_all(said.as_bytes())?;
        line.clear();
    }
    output.flush()
}

/// The numbers of a line that has just so many.
fn numbers<const COUNT: usize>(fields: &[&[u8]]) -> Result<[u64; COUNT], No> {
    list(fields)?.try_into().map_err(|_| NOT_UNDERSTOOD)
}

/// The numbers of a line.
fn list(fields: &[&[u8]]) -> Result<Vec<u64>, No> {
    fields.iter().map(|field| number(field).ok_or(NOT_UNDERSTOOD)).collect()
}

/// An unsigned number in base ten below 2^64; leading zeros are digits too.
fn number(field: &[u8]) -> Option<u64> {
    let mut digits = (!field.is_empty()).then_some(field)?.iter();
    digits.try_fold(0_u64, |number, digit| {
        let digit = digit.is_ascii_digit().then(|| u64::from(digit - b'0'))?;
        number.checked_mul(10)?.checked_add(digit)
    })
}

fn ok(number: u64) -> String {
    line("ok", &[number])
}

/// A word and numbers, one space apart.
fn line(word: &str, numbers: &[u64]) -> String {
    let numbers: String = numbers.iter().map(|number| format!(" {number}")).collect();
    format!("{word}{numbers}\n")
}
