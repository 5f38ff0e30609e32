//! Replay lines: the calls of a list at full size, one a line, and the answers to it.
//! Paper: the lines of "Program `rehearse`", with those for a curve and for what is lent.

use crate::book::Book;
use crate::calls::{Answer, Call, POINTS_LENT, ROWS_LENT};
use std::io::{self, BufRead, Write};

/// The numbers of a row.
const ROW: u64 = 6;

/// A line that is understood.
enum Line {
    Call(Call),
    /// How many rows are lent from now on, and how many numbers to a curve.
    Lend(u64),
}

/// What the lines so far made.
struct State {
    /// The book of the last accepted O.
    book: Option<Book>,
    rows: u64,
    points: u64,
}

/// Reads lines to the end and prints the answer to each.
pub fn replay(input: &mut impl BufRead, output: &mut impl Write) -> io::Result<()> {
    let mut state = State { book: None, rows: ROWS_LENT, points: POINTS_LENT };
    for line in input.split(b'\n') {
        let mut text = Vec::new();
        match understand(&line?, &state) {
            Some(line) => state.answer(line, &mut text)?,
            None => writeln!(text, "no 0")?,
        }
        output.write_all(&text)?;
        output.flush()?;
    }
    Ok(())
}

/// What a line says, if it is understood.
fn understand(line: &[u8], state: &State) -> Option<Line> {
    let text = std::str::from_utf8(line).ok()?;
    let (letter, rest) = text.split_once(' ').map_or((text, None), |(a, b)| (a, Some(b)));
    let fields = rest.into_iter().flat_map(|rest| rest.split(' '));
    let numbers: Vec<u64> = fields.map(number).collect::<Option<_>>()?;
    let lent = state.rows;
    let call = match (letter, numbers.as_slice()) {
        ("N", &[rows]) => return Some(Line::Lend(rows)),
        ("O", &[days, floor, ceiling]) => Call::Open { short: false, days, floor, ceiling },
        ("E", &[kind, capacity, asset]) => Call::Enrol { kind, capacity, asset },
        ("L", [unit, partner, price, amounts @ ..]) => {
            let (unit, partner, price) = (*unit, *partner, *price);
            Call::Offer { unit, partner, price, amounts: amounts.to_vec() }
        }
        ("T", &[unit, number, quantity]) => Call::Take { unit, number, quantity, lent },
        ("W", &[unit, number]) => Call::Withdraw { unit, number },
        ("R", &[unit, direction, period, price, quantity]) => {
            Call::Order { unit, direction, period, price, quantity, lent }
        }
        ("X", &[unit, number]) => Call::Cancel { unit, number },
        ("C", []) => Call::Clear { lent },
        ("D", []) => Call::Close,
        ("V", &[unit, day]) => Call::Curve { unit, day, lent: state.points },
        _ => return None,
    };
    Some(Line::Call(call))
}

/// An unsigned number in base ten below 2^64.
fn number(field: &str) -> Option<u64> {
    // `parse` would let a sign through.
    if !field.bytes().all(|byte| byte.is_ascii_digit()) {
        return None;
    }
    field.parse().ok()
}

impl State {
    fn answer(&mut self, line: Line, text: &mut Vec<u8>) -> io::Result<()> {
        match line {
            Line::Lend(rows) => {
                self.rows = rows.saturating_mul(ROW);
                self.points = rows;
                writeln!(text, "ok 0")
            }
            Line::Call(Call::Curve { unit, day, lent }) => {
                let points =
                    self.book.as_ref().ok_or(0).and_then(|book| book.curve(unit, day, lent));
                print_points(points, text)
            }
            Line::Call(call) => print_answer(self.make(&call), text),
        }
    }

    /// Makes a call; an opening in a place of its own, so that a refused one leaves the book.
    fn make(&mut self, call: &Call) -> Result<Answer, u64> {
        if !matches!(call, Call::Open { .. }) {
            return self.book.as_mut().ok_or(0_u64)?.make(call);
        }
        let mut opened = Book::blank();
        let answer = opened.make(call)?;
        self.book = Some(opened);
        Ok(answer)
    }
}

/// `ok` and the number, then a line `t` for each row; or `no` and the refusal.
fn print_answer(answer: Result<Answer, u64>, text: &mut Vec<u8>) -> io::Result<()> {
    let Answer { number, rows } = match answer {
        Ok(answer) => answer,
        Err(refusal) => return writeln!(text, "no {refusal}"),
    };
    writeln!(text, "ok {number}")?;
    for row in rows {
        let (way, period, seller, buyer) = (row.way, row.period, row.seller, row.buyer);
        writeln!(text, "t {way} {period} {seller} {buyer} {} {}", row.quantity, row.price)?;
    }
    Ok(())
}

/// `ok 0`, then a line `c` with the points; or `no` and the refusal.
fn print_points(points: Result<[u64; 48], u64>, text: &mut Vec<u8>) -> io::Result<()> {
    let points = match points {
        Ok(points) => points,
        Err(refusal) => return writeln!(text, "no {refusal}"),
    };
    write!(text, "ok 0\nc")?;
    for point in points {
        write!(text, " {point}")?;
    }
    writeln!(text)
}
