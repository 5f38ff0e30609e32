//! A book that owns its memory.

use cenduxari::{Book, Direction, Kind, Refusal};

#[test]
fn opens_for_1_to_31_days() {
    for days in [0, 32, u64::MAX] {
        assert_eq!(Book::open(days, 0, 0).unwrap_err(), Refusal::DaysOrPrices);
    }
    assert_eq!(Book::open(1, 1, 0).unwrap_err(), Refusal::DaysOrPrices);
    assert_eq!(Book::open(1, 0, 10_000_001).unwrap_err(), Refusal::DaysOrPrices);
    for days in 1..=31 {
        assert!(Book::open(days, 0, 10_000_000).is_ok());
    }
}

#[test]
fn resumes_from_its_words_alone() {
    let mut book = Book::open(2, 0, 1_000).unwrap();
    let unit = book.enrol(Kind::Retailer, 10, 100).unwrap();
    book.order(unit, Direction::Buy, 47, 500, 10).unwrap();
    let mut resumed = Book::resume(book.words().to_vec()).unwrap();
    assert_eq!(resumed.cancel(unit, 1), Ok(()));
    assert_eq!(resumed.cancel(unit, 1), Err(Refusal::Number));
    assert_eq!(book.cancel(unit, 1), Ok(()));
    assert_eq!(resumed.words(), book.words());
    for words in [vec![], vec![0; 10_000], book.words()[1..].to_vec()] {
        assert_eq!(Book::resume(words).unwrap_err(), Refusal::UnsoundBook);
    }
}

#[test]
fn a_partner_of_0_is_no_unit() {
    let mut book = Book::open(1, 0, 1_000).unwrap();
    let plant = book.enrol(Kind::Generator, 10, 0).unwrap();
    let user = book.enrol(Kind::WholesaleUser, 10, 0).unwrap();
    assert_eq!(book.offer(plant, Some(0), 500, &[1; 24]), Err(Refusal::UnknownUnit));
    assert_eq!(book.offer(plant, Some(3), 500, &[1; 24]), Err(Refusal::UnknownUnit));
    assert_eq!(book.offer(plant, Some(plant), 500, &[1; 24]), Err(Refusal::Party));
    assert_eq!(book.offer(plant, Some(user), 500, &[1; 24]), Ok(1));
    assert_eq!(book.offer(user, None, 500, &[1; 24]), Ok(2));
}
