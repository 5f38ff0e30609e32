//! Takes from full tables of listings, word by word: each amount is left less its part, where it stands, and other offers'
//! amounts stay (paper 02, job 2).

use crate::books::listed;
use crate::engine::{Engine, Trial};
use crate::layout::{amount_at, held_at, offer_at, words, TAKEN};
use crate::random::Random;
use second::book::Offer;
use second::calls::{Call, ROWS_LENT};
use second::sharing::share;

/// Takes so often from one of eight listings of a new book, by the engine to try; gives how many amounts went down, and how
/// many words of the listings were looked at.
pub fn run_takes(engine: Engine, seed: u64, takes: u64) -> Result<[u64; 2], String> {
    let mut random = Random(seed);
    let mut counted = [0; 2];
    for at in 0..takes {
        let days = random.of(&[1, 2, 30, 31]);
        let mut trial = Trial::new(engine, words(days), &mut random);
        let mut book = listed(days, 4, Offer::MOST as u64);
        let most = random.of(&[1, 2, 9, 900]);
        for offer in &mut book.offers {
            offer.amounts.fill_with(|| random.to(most));
            offer.amounts[0] += 2;
        }
        let place = random.to(Offer::MOST as u64 - 1) as usize;
        let amounts = book.offers[place].amounts.clone();
        let number = book.offers[place].number;
        let quantity = 1 + random.to(amounts.iter().sum::<u64>() - 2);
        trial.forge(book);
        let before = trial.memory.all().to_vec();
        let call = Call::Take { unit: 2, number, quantity, lent: ROWS_LENT };
        let found = |fault: &str| format!("{fault}: {call:?}; take {at} seed {seed}");
        trial.call(&call, words(days), &mut random).map_err(found)?;
        let mut parts = vec![0; amounts.len()];
        share(quantity, &amounts, &mut parts);
        counted[0] += parts.iter().filter(|&&part| part > 0).count() as u64;
        // All words before the figures, of which the take may change the listing's own amounts and its mark.
        for (word, &was) in before[..held_at(0, 0)].iter().enumerate() {
            let own = word.checked_sub(amount_at(place, 0)).and_then(|period| parts.get(period));
            let expected = match own {
                Some(part) => was - part,
                None if word == offer_at(place) + TAKEN => 1,
                None => was,
            };
            if trial.memory.all()[word] != expected {
                return Err(found("a word of an offer is another"));
            }
            counted[1] += 1;
        }
    }
    Ok(counted)
}
