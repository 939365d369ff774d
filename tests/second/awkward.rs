//! Every two awkward bytes at every place of a rule: the fault of a bad line stands at its first byte that leaves no form possible, so that
//! each byte can move it, hide it or be it.

use std::collections::BTreeMap;

use crate::figures::{refusal, FOLDS, NAME_BYTES};
use crate::harness::{Difference, Harness, Lent};
use crate::known::book;
use crate::random::Random;

/// Blanks, the line's own signs, name bytes of each sort, bytes next to them, and bytes that no line but a remark has.
const BYTES: &[u8] = b" \t:#\naZ0._-/@[`{,!\0\r\x7f\x80\xff";

/// Head, colon and body with and without blanks, and names just at the longest length and about it, in the head and in the body.
fn lines() -> Vec<String> {
    let mut lines = vec!["ab:c d".to_string(), "\tA : b  c\t".to_string()];
    for length in NAME_BYTES - 1..=NAME_BYTES + 1 {
        let name = "n".repeat(length);
        lines.push(format!("{name}:b"));
        lines.push(format!("a: {name} c"));
    }
    lines
}

struct Sweep<'a> {
    harness: &'a mut Harness,
    random: Random,
    calls: u64,
    numbers: BTreeMap<u64, u64>,
}

impl Sweep<'_> {
    /// The line with these bytes put in at a place or over those that stand there, between two rules.
    fn one(&mut self, line: &str, place: usize, over: usize, bytes: [u8; 2]) -> Result<(), Difference> {
        let mut text = book(&format!("x:y/{line}/y:"));
        let at = book("x:y").len() + place;
        text.splice(at..at + over, bytes);
        let lent = Lent::usual(self.calls % (FOLDS + 1), &mut self.random);
        let heard = self.harness.check_text(&text, lent)?;
        let number = heard.map_or_else(|refusal| refusal.number, |_| 0);
        *self.numbers.entry(number).or_default() += 1;
        self.calls += 1;
        Ok(())
    }

    fn line(&mut self, line: &str) -> Result<(), Difference> {
        for first in BYTES {
            for second in BYTES {
                for place in 0..=line.len() {
                    self.one(line, place, 0, [*first, *second])?;
                    if place + 2 <= line.len() {
                        self.one(line, place, 2, [*first, *second])?;
                    }
                }
            }
        }
        Ok(())
    }
}

pub fn run(harness: &mut Harness, seed: u64) -> Result<String, Difference> {
    let mut sweep = Sweep { harness, random: Random::new(seed, 6 << 40), calls: 0, numbers: BTreeMap::new() };
    let lines = lines();
    for line in &lines {
        sweep.line(line)?;
    }
    let counts: Vec<String> = sweep.numbers.iter().map(|(number, count)| format!("{number}: {count}")).collect();
    let summary = format!("{} rules, {} calls: alike; numbers {}", lines.len(), sweep.calls, counts.join(", "));
    if sweep.numbers.keys().copied().eq([0, refusal::LINE, refusal::LONG_NAME, refusal::BARRED_BYTE]) {
        return Ok(summary);
    }
    let lent = Lent::usual(0, &mut sweep.random);
    let expected = format!("each number of a bad line and no other refusal, in {summary}");
    Err(Difference::unexpected(&book(""), lent, &Ok(Vec::new()), "awkward bytes", expected))
}
