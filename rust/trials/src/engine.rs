//! A call on lent memory, made by the engine to try and by the second engine: the answers, the rows or points and the
//! whole book must be equal, and nothing else in memory may change.

use crate::exported;
use crate::layout::{decode, encode, sound_book, words};
use crate::random::Random;
use cenduxari::{lent, Refusal};
use second::book::Book;
use second::calls::{Call, Row, POINTS_LENT};

/// What a call tells: the refusal or 0, the number and the count of rows.
#[derive(Clone, Copy, Debug, PartialEq, Eq)]
pub struct Told {
    pub refusal: u64,
    pub number: u64,
    pub count: u64,
}

impl Told {
    /// Of a call that gives no number and no rows.
    pub fn of(refusal: u64) -> Told {
        Told { refusal, number: 0, count: 0 }
    }
}

/// A version of the engine: a call on a book's memory, with the rows or points lent.
pub type Engine = fn(&Call, &mut [u64], &mut [u64]) -> Told;

/// The calls by the safe crate.
pub fn safe(call: &Call, book: &mut [u64], rows: &mut [u64]) -> Told {
    let made: Result<(u64, usize), Refusal> = match *call {
        Call::Open { days, floor, ceiling, .. } => {
            lent::open(book, days, floor, ceiling).map(|()| (0, 0))
        }
        Call::Enrol { kind, capacity, asset } => {
            lent::enrol(book, kind, capacity, asset).map(|number| (number, 0))
        }
        Call::Offer { unit, partner, price, ref amounts } => {
            lent::offer(book, unit, partner, price, amounts).map(|number| (number, 0))
        }
        Call::Take { unit, number, quantity, .. } => {
            lent::take(book, unit, number, quantity, rows).map(|count| (0, count))
        }
        Call::Withdraw { unit, number } => lent::withdraw(book, unit, number).map(|()| (0, 0)),
        Call::Order { unit, direction, period, price, quantity, .. } => {
            lent::order(book, unit, direction, period, price, quantity, rows)
        }
        Call::Cancel { unit, number } => lent::cancel(book, unit, number).map(|()| (0, 0)),
        Call::Clear { .. } => lent::clear(book, rows).map(|count| (0, count)),
        Call::Close => lent::close(book).map(|()| (0, 0)),
        Call::Curve { unit, day, .. } => lent::curve(book, unit, day, rows).map(|()| (0, 0)),
    };
    match made {
        Ok((number, count)) => Told { refusal: 0, number, count: count as u64 },
        Err(refusal) => Told::of(refusal.number()),
    }
}

/// Guard words before and after what is lent.
const GUARD: usize = 16;

/// Memory to lend from, with guard words around it, and a copy of it from before the call.
pub struct Memory {
    words: Vec<u64>,
    before: Vec<u64>,
}

impl Memory {
    /// Memory of which so many words can be lent, with any content.
    pub fn new(length: usize, random: &mut Random) -> Memory {
        let words: Vec<u64> = (0..length + 2 * GUARD).map(|_| random.word()).collect();
        Memory { before: words.clone(), words }
    }

    /// How many words can be lent.
    pub fn length(&self) -> usize {
        self.words.len() - 2 * GUARD
    }

    /// The words that can be lent.
    pub fn all(&self) -> &[u64] {
        &self.words[GUARD..self.words.len() - GUARD]
    }

    /// The same, to change them.
    pub fn all_mut(&mut self) -> &mut [u64] {
        let length = self.length();
        &mut self.words[GUARD..GUARD + length]
    }

    /// Lends the first words, once all are copied.
    fn lend(&mut self, length: usize) -> &mut [u64] {
        self.before.clone_from(&self.words);
        &mut self.all_mut()[..length]
    }

    /// Was each word kept but the first so many?
    fn kept_past(&self, first: usize) -> bool {
        let past = GUARD + first;
        self.words[..GUARD] == self.before[..GUARD] && self.words[past..] == self.before[past..]
    }

    /// Other words in place of the first so many.
    fn refill(&mut self, first: usize, random: &mut Random) {
        for word in &mut self.all_mut()[..first] {
            *word = random.word();
        }
    }
}

/// An engine with its memory, beside the second engine's book.
pub struct Trial {
    pub engine: Engine,
    pub memory: Memory,
    /// What is lent for rows and points.
    rows: Memory,
    /// The book that the memory holds; a blank one if it holds no sound book.
    pub second: Book,
}

impl Trial {
    /// A trial in memory of so many words, with any content.
    pub fn new(engine: Engine, length: usize, random: &mut Random) -> Trial {
        let memory = Memory::new(length, random);
        let rows = Memory::new(lent::ROWS_WORDS + 64, random);
        Trial { engine, memory, rows, second: Book::blank() }
    }

    /// Puts a book into the memory, whatever it held.
    pub fn forge(&mut self, book: Book) {
        encode(&book, self.memory.all_mut());
        self.second = book;
    }

    /// Becomes a trial of the other's memory with one word of it changed.
    pub fn damage(&mut self, other: &Trial, place: usize, value: u64) {
        self.memory.words.clone_from(&other.memory.words);
        self.memory.all_mut()[place] = value;
        self.second = sound_book(self.memory.all()).unwrap_or_else(Book::blank);
    }

    /// How many words the book that stands needs.
    pub fn needed(&self) -> usize {
        words(self.second.days)
    }

    /// Makes the call on the first so many words of memory, and gives what was told and what was written to rows or
    /// points, or the fault that was found.
    pub fn call(
        &mut self,
        call: &Call,
        length: usize,
        random: &mut Random,
    ) -> Result<(Told, Vec<u64>), &'static str> {
        let rows = self.rows.lend(lent_by(call));
        let told = (self.engine)(call, self.memory.lend(length), rows);
        let opens = matches!(call, Call::Open { .. });
        let short = !opens && length < self.needed();
        let (expected, written) =
            if short { answer(&mut Book::blank(), call) } else { answer(&mut self.second, call) };
        self.compare(call, told, expected, &written)?;
        self.rows.refill(written.len(), random);
        Ok((told, written))
    }

    /// Draws the curve of each unit and day and gives their count, or the fault that was found.
    pub fn curves(&mut self) -> Result<u64, &'static str> {
        let (mut drawn, lent) = (0, POINTS_LENT);
        let memory = self.memory.lend(self.memory.length());
        let points = self.rows.lend(lent as usize);
        for unit in 1..=self.second.units.len() as u64 {
            for day in 0..self.second.days {
                if (self.engine)(&Call::Curve { unit, day, lent }, memory, points) != Told::of(0) {
                    return Err("another refusal than the second engine's");
                }
                if points != self.second.points(unit, day) {
                    return Err("other rows or points than the second engine's");
                }
                drawn += 1;
            }
        }
        match self.rows.kept_past(lent as usize) && self.memory.kept_past(0) {
            true => Ok(drawn),
            false => Err("a curve changed the book, or memory past its points"),
        }
    }

    /// What was told and what stands in memory, against the second engine's answer.
    fn compare(
        &self,
        call: &Call,
        told: Told,
        expected: Told,
        written: &[u64],
    ) -> Result<(), &'static str> {
        if told.refusal != expected.refusal {
            return Err("another refusal than the second engine's");
        }
        if told.number != expected.number {
            return Err("another number than the second engine's");
        }
        if told.count != expected.count {
            return Err("another count of rows than the second engine's");
        }
        if !self.rows.kept_past(written.len()) {
            return Err("memory past the rows or points changed");
        }
        if self.rows.all()[..written.len()] != *written {
            return Err("other rows or points than the second engine's");
        }
        if told.refusal != 0 || matches!(call, Call::Curve { .. }) {
            return self
                .memory
                .kept_past(0)
                .then_some(())
                .ok_or("a refusal or curve changed the book");
        }
        if !self.memory.kept_past(self.needed()) {
            return Err("memory past the book changed");
        }
        if decode(self.memory.all()).as_ref() != Some(&self.second) {
            return Err("another book than the second engine's");
        }
        Ok(())
    }
}

/// How many words a call lends for rows or points.
fn lent_by(call: &Call) -> usize {
    match *call {
        Call::Take { lent, .. }
        | Call::Order { lent, .. }
        | Call::Clear { lent }
        | Call::Curve { lent, .. } => lent as usize,
        _ => 0,
    }
}

/// The second engine's answer, and the words that it writes to rows or points.
pub fn answer(book: &mut Book, call: &Call) -> (Told, Vec<u64>) {
    if let Call::Curve { unit, day, lent } = *call {
        return match book.curve(unit, day, lent) {
            Ok(points) => (Told::of(0), points.to_vec()),
            Err(refusal) => (Told::of(refusal), Vec::new()),
        };
    }
    match book.make(call) {
        Ok(answer) => {
            let count = answer.rows.len() as u64;
            let rows = answer.rows.iter().flat_map(flat).collect();
            (Told { refusal: 0, number: answer.number, count }, rows)
        }
        Err(refusal) => (Told::of(refusal), Vec::new()),
    }
}

/// A row as its six numbers.
fn flat(row: &Row) -> [u64; 6] {
    [row.way, row.period, row.seller, row.buyer, row.quantity, row.price]
}

/// The words that the library publishes for a term are those of the layout.
pub fn published() -> bool {
    (1..=31).all(|days| exported::book_words(days) == words(days) as u64)
        && [0, 32, u64::MAX].iter().all(|&days| exported::book_words(days) == 0)
}
