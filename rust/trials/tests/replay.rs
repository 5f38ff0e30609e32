//! Replay lines by the proved engine and by the second one, byte for byte: the repository's own lists, those that lie
//! beside it, and random ones.

use second::beside::{in_folder, pairs};
use second::book::Book;
use second::calls::{Call, ROWS_LENT};
use second::generate::Generator;
use second::manners::{MANNERS, MONTH, NUMBERS};
use std::path::Path;
use trials::random::Random;

/// The state of the engine by whose lists it is held.
const STAGE: &str = "4-";

fn proved(list: &[u8]) -> Vec<u8> {
    let mut said = Vec::new();
    cenduxari::replay::replay(list, &mut said).unwrap();
    said
}

fn second(list: &[u8]) -> Vec<u8> {
    let mut said = Vec::new();
    second::replay::replay(&mut &*list, &mut said).unwrap();
    said
}

/// Both engines answer the list so.
fn answered(name: &str, list: &[u8], answers: &[u8]) {
    for (engine, said) in [("the proved engine", proved(list)), ("the second engine", second(list))]
    {
        let same = said.iter().zip(answers).take_while(|(one, other)| one == other);
        let line = 1 + same.filter(|(byte, _)| **byte == b'\n').count();
        assert!(said == answers, "{name}: {engine} differs in line {line} of the answers");
    }
}

#[test]
fn own_lists() {
    let lists = in_folder(&Path::new(env!("CARGO_MANIFEST_DIR")).join("../replay-lists"), "");
    assert_eq!(lists.len(), 8);
    let mut said = String::new();
    for (path, list, answers) in lists {
        answered(&path.display().to_string(), &list, &answers);
        said += &String::from_utf8(answers).unwrap();
    }
    // 1 no line can meet, and 18 has a test of its own.
    for refusal in (0..=21).filter(|refusal| ![1, 18].contains(refusal)) {
        assert!(said.lines().any(|line| line == format!("no {refusal}")), "{refusal}");
    }
}

#[test]
fn lists_of_the_requests() {
    let lists = pairs("CENDUXARI_REQUESTS", "shared/requests/vectors", STAGE);
    assert!(lists.is_empty() || lists.len() >= 8, "only {} lists found", lists.len());
    for (path, list, answers) in lists {
        answered(&path.display().to_string(), &list, &answers);
    }
}

#[test]
fn all_numbers_of_a_day() {
    let mut list = String::from("O 1 0 9\nE 2 9 0\n");
    let mut answers = String::from("ok 0\nok 1\n");
    for number in 1..=65_535 {
        list += &format!("R 1 0 0 5 1\nX 1 {number}\n");
        answers += &format!("ok {number}\nok 0\n");
    }
    list += "R 1 0 0 5 1\nD\nR 1 0 0 5 1\n";
    answers += "no 18\nok 0\nok 1\n";
    answered("all numbers", list.as_bytes(), answers.as_bytes());
}

/// The lines of a call; what it lends is said before it.
fn lines(call: &Call) -> String {
    match call {
        Call::Open { days, floor, ceiling, .. } => format!("O {days} {floor} {ceiling}\n"),
        Call::Enrol { kind, capacity, asset } => format!("E {kind} {capacity} {asset}\n"),
        Call::Offer { unit, partner, price, amounts } => {
            let amounts: String = amounts.iter().map(|amount| format!(" {amount}")).collect();
            format!("L {unit} {partner} {price}{amounts}\n")
        }
        Call::Take { unit, number, quantity, lent } => {
            format!("N {}\nT {unit} {number} {quantity}\n", lent / 6)
        }
        Call::Withdraw { unit, number } => format!("W {unit} {number}\n"),
        Call::Order { unit, direction, period, price, quantity, lent } => {
            format!("N {}\nR {unit} {direction} {period} {price} {quantity}\n", lent / 6)
        }
        Call::Cancel { unit, number } => format!("X {unit} {number}\n"),
        Call::Clear { lent } => format!("N {}\nC\n", lent / 6),
        Call::Close => "D\n".into(),
        Call::Curve { unit, day, lent } => format!("N {lent}\nV {unit} {day}\n"),
    }
}

#[test]
fn random_calls() {
    for (place, manner) in MANNERS.iter().enumerate().filter(|(place, _)| *place != NUMBERS) {
        let most = if place == MONTH { 60 } else { manner.length };
        let mut generator = Generator::new(place as u64, manner);
        let (mut book, mut list) = (Book::blank(), String::new());
        for _ in 0..most {
            let call = generator.call(&book);
            list += &lines(&call);
            let _ = book.make(&call);
        }
        let answers = second(list.as_bytes());
        assert!(answers.len() as u64 > 5 * most);
        answered(manner.name, list.as_bytes(), &answers);
    }
}

/// Bytes of all kinds between lines of small numbers, mostly in the right count.
#[test]
fn random_bytes() {
    const LETTERS: &[u8] = b"OELTTWRRRRRRXCDVN";
    const COUNTS: [u64; 17] = [3, 3, 27, 3, 3, 2, 5, 5, 5, 5, 5, 5, 2, 0, 0, 2, 1];
    let mut random = Random(7);
    for _ in 0..200 {
        let mut list = b"O 2 0 9\nE 2 9 0\nE 3 9 0\nN 744\n".to_vec();
        for _ in 0..random.to(400) {
            match random.to(9) {
                0 => list.push(random.word() as u8),
                1 => list.push(random.of(b"0123456789 \n\r\t\0+-.OELTWRXCDVNHKBG")),
                _ => {
                    let place = random.to(16) as usize;
                    list.push(LETTERS[place]);
                    for _ in 0..COUNTS[place] + random.to(19) / 19 {
                        list.extend(format!(" {}", random.to(9)).bytes());
                    }
                    list.push(b'\n');
                }
            }
        }
        let answers = second(&list);
        answered(&String::from_utf8_lossy(&list), &list, &answers);
    }
}

/// A line may be as long as it likes.
#[test]
fn long_lines() {
    let zeros = "0".repeat(1_000_000);
    let list = format!(
        "O 1 0 {zeros}9\nC{}\nN {zeros}{}\nN {zeros}{}\nC",
        " 1".repeat(100_000),
        u64::MAX,
        ROWS_LENT
    );
    answered("long lines", list.as_bytes(), b"ok 0\nno 0\nok 0\nok 0\nok 0\n");
}
