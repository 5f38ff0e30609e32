//! Lists of random calls, fed to the engine to try and to the second engine.

use crate::damaged;
use crate::engine::{Engine, Told, Trial};
use crate::layout::words;
use crate::random::Random;
use second::book::{Book, Order, MOST_PRICE, ROLLING};
use second::calls::{Call, POINTS_LENT, ROWS_LENT};
use second::generate::Generator;
use second::limits::days_in_range;
use second::manners::{Manner, MANNERS, MONTH, NUMBERS};
use std::collections::BTreeMap;
use std::fmt;

/// Any term and any number of units, beside the second engine's manners.
pub const TERM: Manner = Manner {
    name: "term",
    days: [1, 31],
    units: [1, 64],
    capacity: [1, 5_000_000],
    ceiling: [1, MOST_PRICE],
    quantity: 100_000,
    ..MANNERS[MONTH]
};

/// What lists came to.
#[derive(Clone, Debug, Default)]
pub struct Counts {
    pub lists: u64,
    /// Calls of lists, by name and refusal, 0 where accepted.
    pub calls: BTreeMap<(&'static str, u64), u64>,
    /// Those of them with memory too short for the book that stands.
    pub short: u64,
    /// Rows by way.
    pub rows: [u64; 5],
    /// The most rows of a call, by name.
    pub most_rows: BTreeMap<&'static str, u64>,
    /// Curves that were drawn.
    pub curves: u64,
    /// Accepted openings by days.
    pub days: BTreeMap<u64, u64>,
    pub most_units: usize,
    pub most_offers: usize,
    pub most_orders: usize,
    pub most_given: u64,
    /// Calls on damaged books by name, and those of them whose book was not sound.
    pub damaged: BTreeMap<&'static str, [u64; 2]>,
    /// Those of the damaged that lie next to an edge of soundness.
    pub edges: u64,
    /// Calls on deep books.
    pub deep: u64,
    /// Orders with 256 open: those that traded whole, those of which some would wait, and those in the call phase.
    pub full: [u64; 3],
}

impl Counts {
    /// All calls of lists.
    pub fn made(&self) -> u64 {
        self.calls.values().sum()
    }

    /// Calls of lists that told this refusal, or 0.
    pub fn told(&self, refusal: u64) -> u64 {
        self.calls.iter().filter(|((_, told), _)| *told == refusal).map(|(_, times)| times).sum()
    }

    /// All damaged books, and those of them that were not sound.
    pub fn damages(&self) -> [u64; 2] {
        self.damaged
            .values()
            .fold([0; 2], |[all, unsound], more| [all + more[0], unsound + more[1]])
    }

    /// Counts a call, by how many orders were open before it and the book after it.
    pub(crate) fn count(
        &mut self,
        call: &Call,
        told: Told,
        written: &[u64],
        before: usize,
        book: &Book,
    ) {
        let name = name(call);
        *self.calls.entry((name, told.refusal)).or_default() += 1;
        if before == Order::MOST && matches!(call, Call::Order { .. }) {
            match (told.refusal, book.phase) {
                (0, _) => self.full[0] += 1,
                (17, ROLLING) => self.full[1] += 1,
                (17, _) => self.full[2] += 1,
                _ => {}
            }
        }
        match *call {
            Call::Curve { .. } => self.curves += u64::from(told.refusal == 0),
            Call::Open { days, .. } if told.refusal == 0 => {
                *self.days.entry(days).or_default() += 1;
            }
            _ => {}
        }
        if told.count > 0 {
            let most = self.most_rows.entry(name).or_default();
            *most = told.count.max(*most);
            self.rows[written[0] as usize] += told.count;
        }
        self.most_units = self.most_units.max(book.units.len());
        self.most_offers = self.most_offers.max(book.offers.len());
        self.most_orders = self.most_orders.max(book.orders.len());
        self.most_given = self.most_given.max(book.given);
    }
}

impl fmt::Display for Counts {
    fn fmt(&self, f: &mut fmt::Formatter<'_>) -> fmt::Result {
        writeln!(f, "lists {}, calls {}, accepted {}", self.lists, self.made(), self.told(0))?;
        write!(f, "memory too short {}, refusals", self.short)?;
        for refusal in 1..=21 {
            write!(f, " {refusal}: {}", self.told(refusal))?;
        }
        let [_, bilateral, listing, clear, rolling] = self.rows;
        write!(
            f,
            "\nrows: bilateral {bilateral}, listing {listing}, clear {clear}, rolling {rolling}"
        )?;
        writeln!(f, "; most of a call {:?}", self.most_rows)?;
        write!(f, "curves {}, terms of {} lengths", self.curves, self.days.len())?;
        writeln!(f, ", calls on deep books {}", self.deep)?;
        let [whole, rest, call] = self.full;
        write!(f, "orders with 256 open: whole {whole}, with a rest {rest}")?;
        writeln!(f, ", in the call phase {call}")?;
        write!(f, "most units {}, offers {}", self.most_units, self.most_offers)?;
        writeln!(f, ", orders {}, numbers of a day {}", self.most_orders, self.most_given)?;
        let [damaged, unsound] = self.damages();
        write!(f, "damaged books {damaged}, not sound {unsound}, at an edge {}", self.edges)?;
        for (name, [all, unsound]) in &self.damaged {
            write!(f, ", {name} {all}/{unsound}")?;
        }
        writeln!(f)
    }
}

/// The name of a call.
pub fn name(call: &Call) -> &'static str {
    match call {
        Call::Open { .. } => "open",
        Call::Enrol { .. } => "enrol",
        Call::Offer { .. } => "offer",
        Call::Take { .. } => "take",
        Call::Withdraw { .. } => "withdraw",
        Call::Order { .. } => "order",
        Call::Cancel { .. } => "cancel",
        Call::Clear { .. } => "clear",
        Call::Close => "close",
        Call::Curve { .. } => "curve",
    }
}

/// How lists are made.
#[derive(Clone, Copy)]
pub struct Plan {
    pub engine: Engine,
    /// A damaged book after one call in so many, and so many of it.
    pub damage: [u64; 2],
}

/// Runs lists until so many calls are made. A fault says where it was found.
pub fn run_lists(plan: Plan, seed: u64, calls: u64, counts: &mut Counts) -> Result<(), String> {
    let mut random = Random(seed);
    let end = counts.made() + calls;
    while counts.made() < end {
        let manner = match random.to(39) {
            0 => &MANNERS[MONTH],
            1..=4 => &TERM,
            place => &MANNERS[place as usize % NUMBERS],
        };
        let left = end - counts.made();
        run_list(plan, random.word(), manner, manner.length.min(left), counts)?;
    }
    Ok(())
}

/// Runs one list of so many calls, then draws the curve of each unit and day.
pub fn run_list(
    plan: Plan,
    seed: u64,
    manner: &'static Manner,
    calls: u64,
    counts: &mut Counts,
) -> Result<(), String> {
    let mut generator = Generator::new(seed, manner);
    let mut random = Random(!seed);
    let spare = random.of(&[0, 1, 500]);
    let mut trial = Trial::new(plan.engine, words(manner.days[1]) + spare, &mut random);
    let mut copy = Trial::new(plan.engine, 0, &mut random);
    let named = |at, fault| format!("{fault}; manner {} seed {seed} call {at}", manner.name);
    counts.lists += 1;
    for at in 0..calls {
        step(&mut trial, &mut generator, &mut random, counts).map_err(|fault| named(at, fault))?;
        if trial.second.days > 0 && random.to(plan.damage[0] - 1) == 0 {
            for _ in 0..plan.damage[1].div_ceil(trial.second.days) {
                damaged::step(&trial, &mut copy, &mut generator, &mut random, counts)
                    .map_err(|fault| named(at, fault))?;
            }
        }
    }
    counts.curves += trial.curves().map_err(|fault| named(calls, fault.to_string()))?;
    Ok(())
}

/// Makes one call and counts what it came to.
fn step(
    trial: &mut Trial,
    generator: &mut Generator,
    random: &mut Random,
    counts: &mut Counts,
) -> Result<(), String> {
    let (call, length) = lend(generator.call(&trial.second), trial, random);
    let short = !matches!(call, Call::Open { .. }) && length < trial.needed();
    let before = trial.second.orders.len();
    let made = trial.call(&call, length, random);
    let (told, written) = made.map_err(|fault| format!("{fault}: {call:?}"))?;
    counts.short += u64::from(short);
    counts.count(&call, told, &written, before, &trial.second);
    Ok(())
}

/// The call with the memory lent for it: now and then too short, and other numbers of rows and points.
pub(crate) fn lend(mut call: Call, trial: &Trial, random: &mut Random) -> (Call, usize) {
    let all = trial.memory.length();
    let mut length = all;
    match &mut call {
        Call::Open { short, days, .. } if days_in_range(*days) => {
            let needed = words(*days);
            if *short {
                length = random.of(&[needed - 1, needed / 2, 0]).min(all);
            }
            *short = length < needed;
        }
        Call::Take { lent, .. } | Call::Order { lent, .. } | Call::Clear { lent }
            if random.to(49) == 0 =>
        {
            *lent = random.of(&[0, ROWS_LENT - 6, ROWS_LENT - 1, ROWS_LENT, ROWS_LENT + 6]);
        }
        Call::Curve { lent, .. } if random.to(9) == 0 => {
            *lent = random.of(&[0, POINTS_LENT - 1, POINTS_LENT, POINTS_LENT + 1]);
        }
        _ => {}
    }
    if !matches!(call, Call::Open { .. }) {
        let needed = trial.needed();
        length = match random.to(199) {
            0 => needed - 1,
            1 => random.to(needed as u64 - 1) as usize,
            2..=99 => needed,
            _ => all,
        };
    }
    (call, length)
}
