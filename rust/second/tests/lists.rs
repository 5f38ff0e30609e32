//! Random lists with soundness and demand 3 after each call, and counts of every refusal.
//! Paper: "The tally" and "Refusals by place of check".

use second::book::{Book, BUY, SELL};
use second::calls::{Answer, Call, Row, ROWS_LENT};
use second::generate::Generator;
use second::lists::{run_list, run_lists, Counts, CALLS};
use second::manners::{MANNERS, MONTH, NUMBERS};
use second::sound::sound;
use second::tally::{demand3, Tally};

/// The refusals that each call can give, by the table of checks.
const REFUSALS: [(&str, &[usize]); 10] = [
    ("open", &[1, 2]),
    ("enrol", &[1, 3, 4, 5]),
    ("offer", &[1, 6, 8, 9, 12, 17, 18, 19, 20, 21]),
    ("take", &[1, 6, 7, 9, 11, 12, 19, 20, 21]),
    ("withdraw", &[1, 6, 11, 13]),
    ("order", &[1, 6, 7, 8, 9, 10, 12, 15, 16, 17, 18, 19, 20, 21]),
    ("cancel", &[1, 6, 11]),
    ("clear", &[1, 7, 14]),
    ("close", &[1]),
    ("curve", &[1, 6, 7, 10]),
];

#[test]
fn lists_with_every_refusal() {
    // One list of each manner, then others until there are 100,000 calls.
    let mut counts = Counts::default();
    for (place, manner) in MANNERS.iter().enumerate() {
        if place != NUMBERS {
            let calls = manner.length.min(if place == MONTH { 300 } else { u64::MAX });
            run_list(place as u64, manner, calls, &mut counts).unwrap();
        }
    }
    let left = 100_000 - counts.calls();
    run_lists(2026, left, &mut counts).unwrap();
    assert_eq!(counts.calls(), 100_000);
    assert!(counts.most_given < 65_535);
    assert_eq!((counts.most_orders, counts.most_offers), (256, 8));
    // One more, which uses all numbers of a day.
    let manner = &MANNERS[NUMBERS];
    run_list(3, manner, manner.length, &mut counts).unwrap();
    assert_eq!(counts.most_given, 65_535);

    for refusal in 1..=21 {
        assert!(counts.refusals(refusal) > 0, "no {refusal} never came");
    }
    for (call, (name, given)) in REFUSALS.iter().enumerate() {
        assert_eq!(*name, CALLS[call]);
        assert!(counts.accepted[call] > 0, "{name} was never accepted");
        for refusal in 0..22 {
            let came = counts.refused[call][refusal] > 0;
            assert_eq!(came, given.contains(&refusal), "{name}: no {refusal}");
        }
    }
    assert!(counts.rows[1..].iter().all(|&rows| rows > 100), "{counts:?}");
    let [_, _, _, take, _, order, _, clear, _, _] = counts.most_rows;
    assert!(take > 600 && order > 5 && clear > 20, "rows: {take}, {order}, {clear}");
    assert!(counts.damaged_sound > 1_000 && counts.damaged > 2 * counts.damaged_sound);
}

/// Lists that are to use all numbers of a day make calls before a unit is enrolled, too.
#[test]
fn calls_before_a_unit() {
    let mut early = 0;
    for seed in 0..64 {
        let mut generator = Generator::new(seed, &MANNERS[NUMBERS]);
        let mut book = Book::blank();
        for _ in 0..20 {
            let call = generator.call(&book);
            let bare = book.days > 0 && book.units.is_empty();
            early += u64::from(bare && !matches!(call, Call::Enrol { .. }));
            let _ = book.make(&call);
        }
    }
    assert!(early > 0);
}

/// A book and a tally after a list that leaves nets, open offers and open orders.
fn grown() -> (Book, Tally) {
    let mut book = Book::blank();
    let mut tally = Tally::default();
    let mut feed = |call: Call| {
        let answer = book.make(&call);
        tally.feed(&call, &answer).unwrap();
        assert!(answer.is_ok(), "{call:?} gives {answer:?}");
    };
    let amounts = |hour: usize, amount: u64| {
        let mut amounts = vec![0; 24];
        amounts[hour] = amount;
        amounts
    };
    let order = |unit, direction, period, price, quantity| Call::Order {
        unit,
        direction,
        period,
        price,
        quantity,
        lent: ROWS_LENT,
    };
    feed(Call::Open { short: false, days: 1, floor: 0, ceiling: 9 });
    feed(Call::Enrol { kind: 2, capacity: 10, asset: 0 });
    feed(Call::Enrol { kind: 3, capacity: 10, asset: 0 });
    feed(Call::Enrol { kind: 4, capacity: 10, asset: 20 });
    feed(Call::Offer { unit: 1, partner: 2, price: 5, amounts: amounts(0, 7) });
    feed(Call::Take { unit: 2, number: 1, quantity: 7, lent: ROWS_LENT });
    feed(Call::Close);
    feed(Call::Offer { unit: 1, partner: 0, price: 5, amounts: amounts(1, 6) });
    feed(Call::Take { unit: 3, number: 1, quantity: 2, lent: ROWS_LENT });
    feed(order(1, SELL, 2, 4, 5));
    feed(order(2, BUY, 2, 6, 3));
    feed(Call::Clear { lent: ROWS_LENT });
    feed(order(2, SELL, 0, 3, 4));
    feed(order(1, BUY, 0, 8, 3));
    (book, tally)
}

#[test]
fn demand_3_holds_of_a_small_list() {
    let (book, tally) = grown();
    assert_eq!(demand3(&tally, &book), Ok(()));
    assert!(tally.agrees(&book) && sound(&book));
    assert_eq!((book.orders.len(), book.offers.len()), (2, 1));
    assert_eq!((tally.units[0].net(0), tally.units[1].net(0)), (4, 4));
    assert_eq!((tally.units[0].volume(0), tally.units[1].volume(0)), (10, 10));
}

/// Demand 3 fails, with this word in its claim, once the book or the tally is changed.
fn fails(word: &str, change: impl Fn(&mut Book, &mut Tally)) {
    let (mut book, mut tally) = grown();
    change(&mut book, &mut tally);
    let claim = demand3(&tally, &book).expect_err(word);
    assert!(claim.contains(word), "{claim} is not about {word}");
}

#[test]
fn demand_3_fails_of_a_wrong_book() {
    fails("net in period 9", |book, _| book.units[0].figures[9].held = 1);
    fails("net in period 2", |book, _| book.units[1].figures[2].raised -= 1);
    fails("net in period 0", |book, _| book.units[1].figures[0].lowered += 1);
    fails("net in period 0", |book, _| book.units[1].figures[0].lowered = 99);
    fails("volume in period 0", |book, _| book.units[0].figures[0].volume -= 1);
    fails("volume in period 1", |book, _| book.units[2].figures[1].volume += 1);
    fails("days or units", |book, _| book.units.truncate(2));
    fails("days or units", |book, _| book.days = 2);
    fails("periods", |book, _| book.units[2].figures.truncate(23));
}

#[test]
fn demand_3_fails_of_a_wrong_list() {
    // More is open, or traded, than the limits let.
    fails("hour limit in period 1", |_, tally| tally.offers[0].amounts[1] = 9);
    fails("hour limit in period 1", |_, tally| tally.units[0].capacity = 5);
    fails("hour limit in period 0", |_, tally| tally.units[0].kind = 1);
    fails("net below 0 in period 0", |_, tally| {
        let lowering = tally.orders.iter_mut().find(|order| order.period == 0);
        lowering.unwrap().quantity = 5;
    });
    fails("term limit", |_, tally| tally.units[2].asset = 1);
    fails("volume limit", |book, tally| {
        // Sold and bought again: the nets stay, the volume grows past the asset.
        tally.units[2].sold[1] += 10;
        tally.units[2].bought[1] += 10;
        book.units[2].figures[1].volume += 20;
    });
    fails("nets differ in period 9", |book, tally| {
        tally.units[2].bought[9] = 1;
        book.units[2].figures[9].held = 1;
        book.units[2].figures[9].volume = 1;
    });
}

/// Demand 3 once unit 3 (asset 20, net 2 in period 1) sold and bought back so much, lists this
/// amount and has an order to sell this quantity.
fn with_open(traded: u64, listed: u64, sells: u64) -> Result<(), String> {
    let (mut book, mut tally) = grown();
    tally.units[2].sold[1] += traded;
    tally.units[2].bought[1] += traded;
    book.units[2].figures[1].volume += 2 * traded;
    let mut amounts = vec![0; 24];
    (amounts[4], amounts[5]) = (listed.min(10), listed.saturating_sub(10));
    let listing = Call::Offer { unit: 3, partner: 0, price: 5, amounts };
    tally.feed(&listing, &Ok(Answer::of(9))).unwrap();
    let (period, price, quantity) = (1, 5, sells);
    let sale = Call::Order { unit: 3, direction: SELL, period, price, quantity, lent: ROWS_LENT };
    tally.feed(&sale, &Ok(Answer::of(10))).unwrap();
    demand3(&tally, &book)
}

#[test]
fn open_amounts_count_in_full() {
    let wrong = |what: &str| Err(format!("unit 3: {what}"));
    // The term limit: net and open raising. Lowering that may not trade frees nothing.
    assert_eq!(with_open(0, 18, 0), Ok(()));
    assert_eq!(with_open(0, 19, 0), wrong("term limit"));
    assert_eq!(with_open(0, 19, 2), wrong("term limit"));
    // The volume limit: all that is open, both ways.
    assert_eq!(with_open(8, 2, 0), Ok(()));
    assert_eq!(with_open(8, 3, 0), wrong("volume limit"));
    assert_eq!(with_open(8, 0, 2), Ok(()));
    assert_eq!(with_open(8, 1, 2), wrong("volume limit"));
    // No net below 0.
    assert_eq!(with_open(0, 0, 3), wrong("net below 0 in period 1"));
}

#[test]
fn the_tally_sees_wrong_answers() {
    // Each row left out, changed in quantity, period or party breaks demand 3, the tally's own
    // figures or the open declarations.
    let mut wrong = 0;
    for seed in 0..6 {
        let mut generator = Generator::new(seed, &MANNERS[0]);
        let mut book = Book::blank();
        let mut tally = Tally::default();
        for at in 0..300 {
            let call = generator.call(&book);
            let answer = book.make(&call);
            if let Ok(answer) = &answer {
                for place in 0..answer.rows.len() {
                    let tampered = tamper(answer, place, at % 4);
                    let mut other = tally.clone();
                    let fed = other.feed(&call, &Ok(tampered));
                    assert!(fed.is_err() || demand3(&other, &book).is_err(), "{call:?}");
                    wrong += 1;
                }
            }
            tally.feed(&call, &answer).unwrap();
        }
    }
    assert!(wrong > 100, "{wrong}");
}

fn tamper(answer: &Answer, place: usize, how: usize) -> Answer {
    let mut rows: Vec<Row> = answer.rows.clone();
    match how {
        0 => {
            rows.remove(place);
        }
        1 => rows[place].quantity += 1,
        2 => rows[place].period = (rows[place].period + 1) % 24,
        _ => {
            let row = &mut rows[place];
            (row.seller, row.buyer) = (row.buyer, row.seller);
        }
    }
    Answer { number: answer.number, rows }
}
