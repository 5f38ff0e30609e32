//! The refusals have the paper's numbers, and a sentence each.

use cenduxari::Refusal;
use std::collections::HashSet;

#[test]
fn numbers_are_the_papers() {
    for number in 1..=21 {
        assert_eq!(Refusal::from_number(number).map(Refusal::number), Some(number));
    }
    for number in [0, 22, (1 << 32) + 1, u64::MAX] {
        assert_eq!(Refusal::from_number(number), None);
    }
    assert_eq!(Refusal::from_number(1), Some(Refusal::UnsoundBook));
    assert_eq!(Refusal::from_number(12), Some(Refusal::Party));
    assert_eq!(Refusal::from_number(21), Some(Refusal::VolumeLimit));
}

#[test]
fn each_has_a_sentence_of_its_own() {
    let sentences: HashSet<String> =
        (1..=21).filter_map(Refusal::from_number).map(|refusal| refusal.to_string()).collect();
    assert_eq!(sentences.len(), 21);
    assert!(sentences.iter().all(|sentence| !sentence.is_empty() && !sentence.contains('\n')));
}
