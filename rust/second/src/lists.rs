//! Runs lists of random calls on the second engine and checks each: soundness, demand 3, and that
//! a refused call leaves the book. Paper: "The tally" and "Refusals by place of check".

use crate::book::Book;
use crate::calls::{Answer, Call};
use crate::damage::damage;
use crate::generate::Generator;
use crate::manners::{Manner, MANNERS, MONTH, NUMBERS};
use crate::random::Random;
use crate::sound::sound;
use crate::tally::{demand3, Tally};

/// The names of the calls, in the order of their counts.
pub const CALLS: [&str; 10] =
    ["open", "enrol", "offer", "take", "withdraw", "order", "cancel", "clear", "close", "curve"];

/// What lists came to.
#[derive(Clone, Debug, Default)]
pub struct Counts {
    pub lists: u64,
    /// Accepted calls, by call.
    pub accepted: [u64; 10],
    /// Refused calls, by call and refusal.
    pub refused: [[u64; 22]; 10],
    /// Rows, by way.
    pub rows: [u64; 5],
    /// The most rows of one call, by call.
    pub most_rows: [usize; 10],
    pub most_orders: usize,
    pub most_offers: usize,
    pub most_given: u64,
    /// Calls on damaged books, and those of them whose book was still sound.
    pub damaged: u64,
    pub damaged_sound: u64,
}

impl Counts {
    /// All calls, those on damaged books too.
    pub fn calls(&self) -> u64 {
        self.accepted.iter().sum::<u64>() + self.refused.iter().flatten().sum::<u64>()
    }

    /// Refused calls of this number.
    pub fn refusals(&self, refusal: usize) -> u64 {
        self.refused.iter().map(|by_number| by_number[refusal]).sum()
    }

    fn count(&mut self, call: &Call, answer: &Result<Answer, u64>) {
        let which = which(call);
        match answer {
            Err(refusal) => self.refused[which][*refusal as usize] += 1,
            Ok(answer) => {
                self.accepted[which] += 1;
                self.most_rows[which] = self.most_rows[which].max(answer.rows.len());
                for row in &answer.rows {
                    self.rows[row.way as usize] += 1;
                }
            }
        }
    }
}

/// The place of a call among the names.
fn which(call: &Call) -> usize {
    match call {
        Call::Open { .. } => 0,
        Call::Enrol { .. } => 1,
        Call::Offer { .. } => 2,
        Call::Take { .. } => 3,
        Call::Withdraw { .. } => 4,
        Call::Order { .. } => 5,
        Call::Cancel { .. } => 6,
        Call::Clear { .. } => 7,
        Call::Close => 8,
        Call::Curve { .. } => 9,
    }
}

/// Runs lists until so many calls are made; the seed draws their manners. One list that uses all
/// numbers of a day and a few of the longest term are among them.
pub fn run_lists(seed: u64, calls: u64, counts: &mut Counts) -> Result<(), String> {
    let mut random = Random::new(seed);
    let end = counts.calls() + calls;
    let numbers = MANNERS[NUMBERS].length;
    if calls >= 2 * numbers {
        run_list(random.draw(), &MANNERS[NUMBERS], numbers, counts)?;
    }
    while counts.calls() < end {
        let place = random.below(NUMBERS as u64) as usize;
        let place = if random.once_in(60) { MONTH } else { place };
        let manner = &MANNERS[place];
        let left = end - counts.calls();
        run_list(random.draw(), manner, manner.length.min(left), counts)?;
    }
    Ok(())
}

/// Runs one list of so many calls. An error says which claim failed, and where.
pub fn run_list(
    seed: u64,
    manner: &'static Manner,
    calls: u64,
    counts: &mut Counts,
) -> Result<(), String> {
    let mut generator = Generator::new(seed, manner);
    let mut book = Book::blank();
    let mut tally = Tally::default();
    counts.lists += 1;
    let end = counts.calls() + calls;
    let mut at = 0;
    while counts.calls() < end {
        let call = generator.call(&book);
        let named = |what: String| {
            format!("{what}; manner {} seed {seed} call {at}: {call:?}", manner.name)
        };
        step(&mut book, &mut tally, &call, counts).map_err(named)?;
        if book.days > 0 && generator.random.once_in(24) && counts.calls() < end {
            step_damaged(&mut generator, &book, counts).map_err(named)?;
        }
        at += 1;
    }
    curves(&tally, &book)
}

/// Makes one call and checks what it came to.
fn step(
    book: &mut Book,
    tally: &mut Tally,
    call: &Call,
    counts: &mut Counts,
) -> Result<(), String> {
    let before = book.clone();
    let answer = book.make(call);
    counts.count(call, &answer);
    counts.most_orders = counts.most_orders.max(book.orders.len());
    counts.most_offers = counts.most_offers.max(book.offers.len());
    counts.most_given = counts.most_given.max(book.given);
    if answer.is_err() {
        let blank = before.days == 0;
        if *book != before {
            return Err("a refused call changed the book".to_string());
        }
        if blank {
            return Ok(());
        }
    }
    tally.feed(call, &answer)?;
    if !sound(book) {
        return Err("not sound".to_string());
    }
    if !tally.agrees(book) {
        return Err("open declarations".to_string());
    }
    demand3(tally, book)
}

/// Damages a copy of the book and makes a call on it: 1 and nothing changed if it is not sound;
/// a sound book, whatever is answered, if it is.
fn step_damaged(generator: &mut Generator, book: &Book, counts: &mut Counts) -> Result<(), String> {
    let call = generator.call(book);
    let mut damaged = book.clone();
    damage(&mut generator.random, &mut damaged);
    let before = damaged.clone();
    let was_sound = sound(&damaged);
    let answer = damaged.make(&call);
    counts.count(&call, &answer);
    counts.damaged += 1;
    if was_sound {
        counts.damaged_sound += 1;
    }
    let opens = matches!(call, Call::Open { .. });
    if !opens && was_sound == (answer == Err(1)) {
        return Err(format!("check 1 of a damaged book: {answer:?}"));
    }
    if answer.is_err() && damaged != before {
        return Err("a refused call changed a damaged book".to_string());
    }
    if was_sound && !sound(&damaged) {
        return Err("a forged sound book became unsound".to_string());
    }
    Ok(())
}

/// After the list: curves of every unit and, of long terms, the first and last days.
fn curves(tally: &Tally, book: &Book) -> Result<(), String> {
    for unit in 1..=book.units.len() as u64 {
        for day in 0..book.days {
            if day > 0 && day + 1 < book.days {
                continue;
            }
            let points = book.curve(unit, day, 48).map_err(|no| format!("curve gives {no}"))?;
            for (hour, pair) in points.chunks(2).enumerate() {
                let net = tally.units[unit as usize - 1].net(24 * day as usize + hour);
                if (pair[0] + pair[1]) as i128 != net || pair[0] > pair[1] || pair[1] > pair[0] + 1
                {
                    return Err(format!("curve of unit {unit} day {day} hour {hour}"));
                }
            }
        }
    }
    Ok(())
}
