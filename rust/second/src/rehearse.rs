//! The program `rehearse`: lines of calls in, answers out.
//! Paper: the paragraph "Program `rehearse`" in "Figures to check".

use crate::book::Book;
use crate::calls::{Answer, Call, ROWS_LENT};
use std::io::{self, BufRead, Write};

/// The most units of this program.
const MOST_UNITS: usize = 8;
/// The amounts of an L line.
const AMOUNTS: usize = 24;

/// Reads lines to the end and answers each, flushed line by line.
pub fn rehearse(input: &mut impl BufRead, output: &mut impl Write) -> io::Result<()> {
    let mut book = None;
    let mut line = Vec::new();
    let mut text = Vec::new();
    while input.read_until(b'\n', &mut line)? > 0 {
        if line.last() == Some(&b'\n') {
            line.pop();
        }
        print(answer(&mut book, &line), &mut text)?;
        output.write_all(&text)?;
        output.flush()?;
        text.clear();
        line.clear();
    }
    Ok(())
}

/// Answers one line. `book` is the book of the last accepted O.
pub fn answer(book: &mut Option<Book>, line: &[u8]) -> Result<Answer, u64> {
    let call = understand(line).ok_or(0_u64)?;
    if let Call::Open { days, .. } = call {
        if days > 1 {
            return Err(0);
        }
        let mut opened = Book::blank();
        let answer = opened.make(&call)?;
        *book = Some(opened);
        return Ok(answer);
    }
    let book = book.as_mut().ok_or(0_u64)?;
    if matches!(call, Call::Enrol { .. }) && book.units.len() >= MOST_UNITS {
        return Err(0);
    }
    book.make(&call)
}

/// The call of a line, if it is understood.
fn understand(line: &[u8]) -> Option<Call> {
    let mut fields = line.split(|&byte| byte == b' ');
    let letter = fields.next()?;
    let numbers: Vec<u64> = fields.map(number).collect::<Option<_>>()?;
    let call = match (letter, numbers.as_slice()) {
        (b"O", &[days, floor, ceiling]) => Call::Open { short: false, days, floor, ceiling },
        (b"E", &[kind, capacity, asset]) => Call::Enrol { kind, capacity, asset },
        (b"L", &[unit, partner, price, ref amounts @ ..]) if amounts.len() == AMOUNTS => {
            Call::Offer { unit, partner, price, amounts: amounts.to_vec() }
        }
        (b"T", &[unit, number, quantity]) => Call::Take { unit, number, quantity, lent: ROWS_LENT },
        (b"W", &[unit, number]) => Call::Withdraw { unit, number },
        (b"R", &[unit, direction, period, price, quantity]) => {
            Call::Order { unit, direction, period, price, quantity, lent: ROWS_LENT }
        }
        (b"X", &[unit, number]) => Call::Cancel { unit, number },
        (b"C", &[]) => Call::Clear { lent: ROWS_LENT },
        (b"D", &[]) => Call::Close,
        _ => return None,
    };
    Some(call)
}

/// An unsigned number in base ten below 2^32; leading zeros are digits too.
fn number(field: &[u8]) -> Option<u64> {
    if field.is_empty() {
        return None;
    }
    let mut value: u64 = 0;
    for &byte in field {
        if !byte.is_ascii_digit() {
            return None;
        }
        value = value * 10 + (byte - b'0') as u64;
        if value > u32::MAX as u64 {
            return None;
        }
    }
    Some(value)
}

/// Prints an answer: `ok` and the number, or `no` and the refusal, then a `t` line for each row.
fn print(answer: Result<Answer, u64>, output: &mut impl Write) -> io::Result<()> {
    match answer {
        Err(refusal) => writeln!(output, "no {refusal}"),
        Ok(Answer { number, rows }) => {
            writeln!(output, "ok {number}")?;
            for row in rows {
                writeln!(
                    output,
                    "t {} {} {} {} {} {}",
                    row.way, row.period, row.seller, row.buyer, row.quantity, row.price
                )?;
            }
            Ok(())
        }
    }
}
