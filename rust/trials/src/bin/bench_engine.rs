//! Times every call of the engine beside the second engine and beside a plain read of the book's memory, looks how much
//! stack it needs, and prints tables. With a file's name, as docs/COST.md, the tables take the place of those that stand in it.

use second::book::Book;
use second::calls::{Call, ROWS_LENT};
use std::fmt::Write;
use std::fs;
use trials::books::{check_alone, crossing, each_call, listed, month, spread, sweep, waiting};
use trials::stack::stack_of;
use trials::timing::{times, Times};

const DAYS: [u64; 3] = [1, 7, 31];
const UNITS: [u64; 3] = [1, 16, 64];
const ORDERS: [u64; 3] = [0, 64, 255];

/// How often each case is timed: of the many sizes, and of the others.
const PASSES: usize = 6;
const MORE_PASSES: usize = 12;

/// What stands around the tables in the page.
const MARKS: [&str; 2] = ["<!-- tables of bench_engine -->\n", "<!-- end of tables -->\n"];

/// The times of each call on a book of this size.
struct Size {
    days: u64,
    units: u64,
    orders: u64,
    calls: Vec<(&'static str, Times)>,
}

/// A call that matches orders, and the check of its book alone.
struct Matched {
    name: String,
    whole: Times,
    check: Times,
}

impl Matched {
    /// The engine's and the second engine's time without the check.
    fn less_check(&self) -> [f64; 2] {
        let Matched { whole, check, .. } = self;
        [whole.engine - check.engine, whole.second - check.second]
    }
}

fn main() {
    let (sizes, matched, grown) = (sizes(), matched(), grown());
    let mut text = String::new();
    aims(&sizes, &matched, &grown, &mut text);
    worst(&sizes, &mut text);
    calls(&sizes, &mut text);
    matching(&matched, &mut text);
    growth(&grown, &mut text);
    stacks(&mut text);
    print!("{text}");
    if let Some(file) = std::env::args().nth(1) {
        replace(&file, &text);
    }
}

/// A bound on a ratio, for some sizes and some calls.
struct Aim {
    name: &'static str,
    most: f64,
    beside: fn(&Times) -> f64,
    size: fn(&Size) -> bool,
    call: fn(&str) -> bool,
}

const AIMS: [Aim; 6] = [
    Aim {
        name: "Check alone, 16 and 64 units, at most 0.8 × the second engine",
        most: 0.8,
        beside: beside_second,
        size: |size| size.units > 1,
        call: |name| name == CHECK,
    },
    Aim {
        name: "Check alone, 1 unit, no orders, at most 1.0 × the second engine",
        most: 1.0,
        beside: beside_second,
        size: |size| size.units == 1 && size.orders == 0,
        call: |name| name == CHECK,
    },
    Aim {
        name: "Check alone, 1 unit, with orders, at most 1.6 × the second engine",
        most: 1.6,
        beside: beside_second,
        size: |size| size.units == 1 && size.orders > 0,
        call: |name| name == CHECK,
    },
    Aim {
        name:
            "Every other call that moves no rows, 16 and 64 units, at most 1.0 × the second engine",
        most: 1.0,
        beside: beside_second,
        size: |size| size.units > 1,
        call: |name| name != CHECK && name != TAKE,
    },
    Aim {
        name: "7 and 31 days, 64 units, no rows and no close, at most 2 × the floor",
        most: 2.0,
        beside: beside_floor,
        size: |size| size.days > 1 && size.units == 64,
        call: |name| name != CLOSE && name != TAKE,
    },
    Aim {
        name: "Close of 7 and 31 days, 64 units, at most 3.3 × the floor",
        most: 3.3,
        beside: beside_floor,
        size: |size| size.days > 1 && size.units == 64,
        call: |name| name == CLOSE,
    },
];

/// Calls by the names that `each_call` gives them.
const CHECK: &str = "check alone";
const TAKE: &str = "take";
const CLOSE: &str = "close";

impl Aim {
    /// The largest ratio of each call, and where.
    fn largest<'a>(&self, sizes: &'a [Size]) -> Vec<(&'a str, f64, &'a Size)> {
        let mut found: Vec<(&str, f64, &Size)> = Vec::new();
        for size in sizes.iter().filter(|size| (self.size)(size)) {
            for (name, times) in size.calls.iter().filter(|(name, _)| (self.call)(name)) {
                let ratio = (self.beside)(times);
                match found.iter_mut().find(|at| at.0 == *name) {
                    Some(at) if at.1 < ratio => *at = (name, ratio, size),
                    Some(_) => {}
                    None => found.push((name, ratio, size)),
                }
            }
        }
        found
    }
}

/// Which aims are met, with the largest ratio, and which calls miss one.
fn aims(sizes: &[Size], matched: &[Matched], grown: &Grown, text: &mut String) {
    for aim in &AIMS {
        let largest = aim.largest(sizes);
        let told = |(name, ratio, size): &(&str, f64, &Size)| {
            format!("{name} {ratio:.2} ({}, {}, {})", size.days, size.units, size.orders)
        };
        let missed: Vec<String> = largest.iter().filter(|at| at.1 > aim.most).map(told).collect();
        let most = largest.iter().map(|at| at.1).fold(0.0, f64::max);
        let end = if missed.is_empty() {
            format!("met, at most {most:.2}")
        } else {
            format!("missed by {}", missed.join(", "))
        };
        writeln!(text, "- {}: {end}.", aim.name).unwrap();
    }
    let listing = (grown.offers.engine - grown.many.engine) / 8.0;
    let end = if listing <= 1.0 { "met" } else { "missed" };
    writeln!(text, "- A listing of 31 days open at most 1 µs more: {end}, {listing:.2} µs.")
        .unwrap();
    let large =
        || matched.iter().filter(|call| call.whole.rows > 200 && !call.name.starts_with("take"));
    let ratios: [(&str, fn(&Matched) -> f64); 2] = [
        ("with the check", |call| beside_second(&call.whole)),
        ("without it", |call| call.less_check()[0] / call.less_check()[1]),
    ];
    for (manner, ratio) in ratios {
        let slow = large().filter(|call| ratio(call) > 1.5);
        let missed: Vec<String> =
            slow.map(|call| format!("{} {:.2}", call.name, ratio(call))).collect();
        let most = large().map(ratio).fold(0.0, f64::max);
        let end = if missed.is_empty() {
            format!("met, at most {most:.2}")
        } else {
            format!("missed by {}", missed.join(", "))
        };
        let name = "255 met or 256 cleared at most 1.5 × the second engine";
        writeln!(text, "- {name}, {manner}: {end}.").unwrap();
    }
    let shared = |call: &&Matched| {
        call.name.starts_with("take") || call.name == "clear of 256 in one period at one price"
    };
    let ratios = matched.iter().filter(shared).map(|call| beside_second(&call.whole));
    let most = ratios.fold(0.0, f64::max);
    let end = if most <= 1.0 { "met" } else { "missed" };
    let name =
        "744 taken or 256 cleared at one price, with odd kWh, at most 1.0 × the second engine";
    writeln!(text, "- {name}: {end}, at most {most:.2}.").unwrap();
    writeln!(text, "\nIn brackets days, units and orders.").unwrap();
}

fn beside_second(times: &Times) -> f64 {
    times.engine / times.second
}

fn beside_floor(times: &Times) -> f64 {
    times.engine / times.floor
}

/// The times of each case. All are timed in turn, several times over, so that one disturbance spoils none.
fn in_turn(cases: &[(Book, Call)], passes: usize) -> Vec<Times> {
    let pass = || cases.iter().map(|(book, call)| times(book, call));
    let mut least: Vec<Times> = pass().collect();
    for _ in 1..passes {
        for (times, again) in least.iter_mut().zip(pass()) {
            *times = times.least(again);
        }
    }
    least
}

/// Each call at each size.
fn sizes() -> Vec<Size> {
    let (mut sizes, mut cases) = (Vec::new(), Vec::new());
    for days in DAYS {
        for units in UNITS {
            for orders in ORDERS {
                let (mut names, first) = (Vec::new(), cases.len());
                for (name, book, call) in each_call(days, units, orders) {
                    names.push(name);
                    cases.push((book, call));
                }
                sizes.push((days, units, orders, names, first));
            }
        }
    }
    let times = in_turn(&cases, PASSES);
    let with_times = |(days, units, orders, names, first): (u64, u64, u64, Vec<_>, usize)| Size {
        days,
        units,
        orders,
        calls: names.into_iter().zip(times[first..].iter().copied()).collect(),
    };
    sizes.into_iter().map(with_times).collect()
}

/// A table's head.
fn head(title: &str, columns: &[&str], text: &mut String) {
    writeln!(text, "\n{title}\n\n| {} |", columns.join(" | ")).unwrap();
    writeln!(text, "|{}", "---|".repeat(columns.len())).unwrap();
}

/// Microseconds in three figures or so.
fn micros(time: f64) -> String {
    match time {
        100.0.. => format!("{time:.0}"),
        10.0.. => format!("{time:.1}"),
        _ => format!("{time:.2}"),
    }
}

/// The largest ratio of each call to the second engine and to the floor by the number of units, and where.
fn worst(sizes: &[Size], text: &mut String) {
    let mut columns = vec!["call".to_string()];
    for beside in ["second", "floor"] {
        columns.extend(UNITS.map(|units| format!("× {beside}, units {units}")));
    }
    let columns: Vec<&str> = columns.iter().map(|name| &**name).collect();
    head("Largest ratios; in brackets days and orders.", &columns, text);
    for (place, &(name, _)) in sizes[0].calls.iter().enumerate() {
        write!(text, "| {name} |").unwrap();
        for of in [beside_second, beside_floor] {
            let ratio = |size: &Size| of(&size.calls[place].1);
            for units in UNITS {
                let of_units = sizes.iter().filter(|size| size.units == units);
                let at = of_units.max_by(|one, other| ratio(one).total_cmp(&ratio(other))).unwrap();
                write!(text, " {:.2} ({}, {}) |", ratio(at), at.days, at.orders).unwrap();
            }
        }
        writeln!(text).unwrap();
    }
}

/// The times of each call at each size.
fn calls(sizes: &[Size], text: &mut String) {
    let mut columns = vec!["days", "units", "orders", "floor"];
    columns.extend(sizes[0].calls.iter().map(|(name, _)| name));
    head("Microseconds of a call: the engine / the second engine.", &columns, text);
    for Size { days, units, orders, calls } in sizes {
        let floor = calls.iter().map(|(_, times)| times.floor).fold(f64::MAX, f64::min);
        write!(text, "| {days} | {units} | {orders} | {} |", micros(floor)).unwrap();
        for (_, times) in calls {
            write!(text, " {} / {} |", micros(times.engine), micros(times.second)).unwrap();
        }
        writeln!(text).unwrap();
    }
}

/// Amounts of a month's listing by period, with odd kWh in each take.
const MONTHS: [(&str, fn(u64) -> u64); 3] = [
    ("equal amounts", |_| 1_003),
    ("a day's amounts", |period| 400 + 97 * (period % 24) * (23 - period % 24) / 3),
    ("other amounts each", |period| 500 + period * 7_919 % 1_009),
];

/// Takes of a month, orders that meet many counterparts, and clears of many orders.
fn matched() -> Vec<Matched> {
    let mut cases = Vec::new();
    for units in [16, 64] {
        for (manner, amount) in MONTHS {
            let (book, call) = month(units, amount);
            cases.push((format!("take of 744, {units} units, {manner}"), book, call));
        }
    }
    for open in [255, 256] {
        cases.push((format!("order that meets 1 of {open}"), waiting(open), sweep(1)));
    }
    for sells in [16, 64, 255, 256] {
        cases.push((format!("order that meets {sells}"), waiting(sells), sweep(sells)));
    }
    let manners = [
        ("in one period", 1, false),
        ("in one period at one price", 1, true),
        ("over 24 periods", 24, false),
    ];
    for (manner, periods, one_price) in manners {
        for orders in [16, 64, 256] {
            let name = format!("clear of {orders} {manner}");
            let book = crossing(orders, periods, one_price);
            cases.push((name, book, Call::Clear { lent: ROWS_LENT }));
        }
    }
    let (mut names, mut pairs) = (Vec::new(), Vec::new());
    for (name, book, call) in cases {
        names.push(name);
        pairs.push((book.clone(), call));
        pairs.push((book, check_alone()));
    }
    let times = in_turn(&pairs, MORE_PASSES);
    let with_times =
        |(name, pair): (String, &[Times])| Matched { name, whole: pair[0], check: pair[1] };
    names.into_iter().zip(times.chunks(2)).map(with_times).collect()
}

/// A line for each of them, with and without the check of its book.
fn matching(matched: &[Matched], text: &mut String) {
    let columns = [
        "call",
        "rows",
        "engine",
        "second",
        "ratio",
        "engine less check",
        "second less check",
        "ratio",
    ];
    let title = "Calls that move rows, in microseconds; less check: without the check of the book.";
    head(title, &columns, text);
    for call in matched {
        let Times { engine, second, rows, .. } = call.whole;
        write!(text, "| {} | {rows}", call.name).unwrap();
        for [engine, second] in [[engine, second], call.less_check()] {
            let ratio = engine / second;
            write!(text, " | {} | {} | {ratio:.2}", micros(engine), micros(second)).unwrap();
        }
        writeln!(text, " |").unwrap();
    }
}

/// Times of the check of books that differ in one thing.
struct Grown {
    day: Times,
    one: Times,
    many: Times,
    offers: Times,
    none: Times,
    some: Times,
    most: Times,
}

fn grown() -> Grown {
    let mut books = vec![listed(1, 1, 0), listed(31, 1, 0), listed(31, 64, 0), listed(31, 64, 8)];
    books.extend(ORDERS.map(|orders| spread(1, 64, orders)));
    let cases: Vec<_> = books.into_iter().map(|book| (book, check_alone())).collect();
    let times = in_turn(&cases, MORE_PASSES);
    let [day, one, many, offers, none, some, most] = times[..] else { unreachable!() };
    Grown { day, one, many, offers, none, some, most }
}

/// What one more of each costs the check of the book.
fn growth(grown: &Grown, text: &mut String) {
    let title = "How the check of the book grows, in nanoseconds.";
    head(title, &["for each", "engine", "second"], text);
    let Grown { day, one, many, offers, none, some, most } = *grown;
    line("unit and period", one, many, 63 * 744, text);
    line("period, whatever the units", day, one, 30 * 24, text);
    line("offer and period", many, offers, 8 * 744, text);
    line("order to 64", none, some, 64, text);
    line("order past 64", some, most, 255 - 64, text);
}

/// The difference of two times, for each of so many.
fn line(name: &str, less: Times, more: Times, count: u64, text: &mut String) {
    let each = |of: fn(&Times) -> f64| 1_000.0 * (of(&more) - of(&less)) / count as f64;
    let (engine, second) = (each(|times| times.engine), each(|times| times.second));
    writeln!(text, "| {name} | {engine:.2} | {second:.2} |").unwrap();
}

/// The stack that each call needs, on a book of the largest size or with the most rows.
fn stacks(text: &mut String) {
    let title = "The most stack that a call was seen to need, in bytes; less than 512 is 0.";
    head(title, &["call", "bytes"], text);
    for (name, book, call) in each_call(31, 64, 255) {
        let mut cases = vec![(book, call)];
        match name {
            TAKE => cases.push(month(64, MONTHS[2].1)),
            "order" => cases.push((waiting(256), sweep(256))),
            "clear" => cases.push((crossing(256, 1, false), Call::Clear { lent: ROWS_LENT })),
            _ => {}
        }
        let most = cases.into_iter().map(|(book, call)| stack_of(book, call)).max();
        writeln!(text, "| {name} | {} |", most.unwrap()).unwrap();
    }
}

/// Puts the tables between the marks of a page.
fn replace(file: &str, tables: &str) {
    let page = fs::read_to_string(file).expect("the page can be read");
    let (before, rest) = page.split_once(MARKS[0]).expect("the page has the first mark");
    let (_, after) = rest.split_once(MARKS[1]).expect("the page has the second mark");
    let page = [before, MARKS[0], tables, "\n", MARKS[1], after].concat();
    fs::write(file, page).expect("the page can be written");
}
