//! Random books through both engines.

use std::ops::Range;
use std::time::Instant;

use crate::books;
use crate::engine::Judged;
use crate::figures::FOLDS;
use crate::harness::{Difference, Harness, Lent};
use crate::random::Random;

const WILD_FOLDS: [u64; 10] = [FOLDS + 2, 16, 64, 255, 256, 65_536, 1 << 32, (1 << 32) + FOLDS, 1 << 63, u64::MAX];

/// One random book at every fold number and at one too many, and sometimes with a wild one or in a short area.
fn one(harness: &mut Harness, seed: u64, place: u64) -> Result<(), Difference> {
    let mut random = Random::new(seed, place);
    let text = books::draw(&mut random);
    let judged = Judged::new(&text);
    harness.take_up(&text);
    let mut calls: Vec<Lent> = (0..=FOLDS + 1).map(|folds| Lent::usual(folds, &mut random)).collect();
    if random.one_in(4) {
        let folds = random.pick(&WILD_FOLDS);
        calls.push(Lent::usual(folds, &mut random));
    }
    if random.one_in(4) {
        let folds = random.below(FOLDS as usize + 2) as u64;
        calls.push(Lent::short(folds, &mut random));
    }
    for lent in calls {
        let heard = harness.check(&text, &judged, lent)?;
        if let Ok(listing) = &heard {
            harness.tally.count_rounds(lent.folds, listing);
        }
        harness.tally.count(&text, &judged, lent, heard.map(|_| ()));
    }
    Ok(())
}

/// The random books of these numbers; a difference comes with the number of its book.
pub fn run(harness: &mut Harness, seed: u64, places: Range<u64>) -> Result<String, (u64, Difference)> {
    let (calls, began) = (harness.calls, Instant::now());
    let books = places.end - places.start;
    for place in places {
        one(harness, seed, place).map_err(|difference| (place, difference))?;
    }
    let (calls, seconds) = (harness.calls - calls, began.elapsed().as_secs_f64());
    let reach = harness.tally.reach();
    Ok(format!("{books} books, folds 0 to {}, {calls} calls in {seconds:.1} s: alike in every byte; {reach}", FOLDS + 1))
}
