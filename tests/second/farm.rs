//! Three troubles of a build farm, each as a test: jobs that wait for each other, a text cut short, schedules that should agree.

use crate::books;
use crate::damage::with_carriage_returns;
use crate::engine::{Judged, Refusal};
use crate::figures::{refusal as number, ATOMS, FOLDS, LISTED, MARK, NAMES, TEXT_BYTES};
use crate::harness::{show, Difference, Harness, Heard, Lent};
use crate::known::book;
use crate::random::Random;

struct Farm<'a> {
    harness: &'a mut Harness,
    random: Random,
}

impl Farm<'_> {
    fn ask(&mut self, text: &[u8], folds: u64) -> Result<(Lent, Heard), Difference> {
        let lent = Lent::usual(folds, &mut self.random);
        Ok((lent, self.harness.check_text(text, lent)?))
    }

    fn expect(&mut self, text: &[u8], folds: u64, expected: &Heard, what: &str) -> Result<(), Difference> {
        let (lent, heard) = self.ask(text, folds)?;
        if heard == *expected {
            Ok(())
        } else {
            Err(Difference::unexpected(text, lent, &heard, what, show(expected)))
        }
    }

    /// A book that the engine accepts.
    fn good_book(&mut self) -> Vec<u8> {
        loop {
            let text = if self.random.one_in(3) { books::draw(&mut self.random) } else { books::small(&mut self.random) };
            if Judged::new(&text).system.is_some() {
                return text;
            }
        }
    }
}

// ---------------------------------------------------------------- the hung job

/// Jobs that wait for each other: the engine ends, and none of them is held.
pub fn hung_job(harness: &mut Harness, seed: u64) -> Result<String, Difference> {
    let mut farm = Farm { harness, random: Random::new(seed, 2 << 40) };
    let mut loops = 0;
    farm.waits(&book("p:q/q:p"), 2, "")?;
    for length in 1..=NAMES {
        farm.waits(&ring(length, "", &[]), length, "")?;
        loops += 1;
        if length < NAMES {
            farm.waits(&ring(length, " f", &["f:"]), length + 1, "f\n")?;
            farm.waits(&ring(length, " gone", &[]), length + 1, "")?;
            loops += 2;
        }
        // each job has two rules, so two helpers
        if length <= ATOMS / 3 {
            farm.waits(&two_way_ring(length), length, "")?;
            loops += 1;
        }
    }
    Ok(format!("{loops} loops of 1 to {NAMES} jobs, folds 0 to {FOLDS}: each ends, no job of a loop is held"))
}

/// Each job over the one before, the first over the last; the first has a further condition.
fn ring(length: usize, further: &str, more: &[&str]) -> Vec<u8> {
    let mut rules = vec![format!("j0:j{}{further}", length - 1)];
    rules.extend((1..length).map(|job| format!("j{job}:j{}", job - 1)));
    rules.extend(more.iter().map(|rule| rule.to_string()));
    book(&rules.join("/"))
}

/// Each job over the one before, or over the one after.
fn two_way_ring(length: usize) -> Vec<u8> {
    let rule = |job: usize| format!("j{job}:j{}/j{job}:j{}", (job + length - 1) % length, (job + 1) % length);
    book(&(0..length).map(rule).collect::<Vec<_>>().join("/"))
}

impl Farm<'_> {
    /// Nothing follows from what is there at the start, so the first round is the last.
    fn waits(&mut self, text: &[u8], names: usize, held: &str) -> Result<(), Difference> {
        for folds in 0..=FOLDS {
            let count = held.lines().count();
            let listing = format!("{LISTED} names={names} held={count} folds={folds} rounds=1\n{held}");
            self.expect(text, folds, &Ok(listing.into_bytes()), "the hung job")?;
        }
        Ok(())
    }
}

// ---------------------------------------------------------------- the pipe

/// Books that a pipe cut short or gave carriage returns: refused, never half read.
pub fn pipe(harness: &mut Harness, seed: u64) -> Result<String, Difference> {
    let mut farm = Farm { harness, random: Random::new(seed, 3 << 40) };
    let (mut cuts, good) = (0, 600);
    for _ in 0..good {
        let text = farm.good_book();
        let folds = farm.random.below(FOLDS as usize + 1) as u64;
        farm.cut(&text, text.len() - 1, folds)?;
        farm.carriage_returns(&text, folds)?;
        if text.len() < 1_000 || farm.random.one_in(16) {
            cuts += text.len();
            for length in 0..text.len() {
                farm.cut(&text, length, folds)?;
            }
        }
    }
    Ok(format!("{good} books with the last line end cut off and with carriage returns, {cuts} cut lengths: refused within a line, a whole shorter book after one"))
}

fn refusal(number: u64, line: u64) -> Heard {
    Err(Refusal { number, line })
}

impl Farm<'_> {
    /// A text that ends within a line is refused. One that ends after a line end is the whole book of the lines before: no reader
    /// could know that more was meant, and the second engine says what that shorter book holds.
    fn cut(&mut self, text: &[u8], length: usize, folds: u64) -> Result<(), Difference> {
        let part = &text[..length];
        if length < MARK.len() {
            self.expect(part, folds, &refusal(number::MARK, 0), "the pipe")
        } else if part[length - 1] != b'\n' {
            self.expect(part, folds, &refusal(number::LAST_BYTE, 0), "the pipe")
        } else {
            let (lent, heard) = self.ask(part, folds)?;
            if heard.is_ok() {
                return Ok(());
            }
            Err(Difference::unexpected(part, lent, &heard, "the pipe", "the book of the lines before".to_string()))
        }
    }

    /// Before every line end, before every one but the mark's, and before a single one.
    fn carriage_returns(&mut self, text: &[u8], folds: u64) -> Result<(), Difference> {
        let all = with_carriage_returns(text);
        let refused = if all.len() > TEXT_BYTES { refusal(number::LONG_TEXT, 0) } else { refusal(number::MARK, 0) };
        self.expect(&all, folds, &refused, "the pipe")?;

        let (_, whole) = self.ask(text, folds)?;
        let after_mark = [MARK, &with_carriage_returns(&text[MARK.len()..])].concat();
        let expected = after_carriage_returns(&after_mark, whole.clone());
        self.expect(&after_mark, folds, &expected, "the pipe")?;

        let ends: Vec<usize> = (MARK.len()..text.len()).filter(|&at| text[at] == b'\n').collect();
        if ends.is_empty() {
            return Ok(());
        }
        let at = self.random.pick(&ends);
        let one = [&text[..at], b"\r", &text[at..]].concat();
        let expected = after_carriage_returns(&one, whole);
        self.expect(&one, folds, &expected, "the pipe")
    }
}

/// A remark takes any byte; every other line that was good is then barred by its carriage return.
fn after_carriage_returns(text: &[u8], whole: Heard) -> Heard {
    if text.len() > TEXT_BYTES {
        return refusal(number::LONG_TEXT, 0);
    }
    let lines = text.split(|&byte| byte == b'\n');
    let bad = lines.enumerate().find(|(_, line)| line.last() == Some(&b'\r') && line[0] != b'#');
    bad.map_or(whole, |(before, _)| refusal(number::BARRED_BYTE, before as u64 + 1))
}

// ---------------------------------------------------------------- the weekly schedule

/// A schedule made without folds and one made with as many as are allowed have the same jobs, also where a job waits for what no rule defines.
pub fn weekly_schedule(harness: &mut Harness, seed: u64) -> Result<String, Difference> {
    let mut farm = Farm { harness, random: Random::new(seed, 4 << 40) };
    let (good, mut undefined) = (5_000, 0);
    farm.same_names(&book("x:y z/y:"))?;
    for _ in 0..good {
        let text = farm.good_book();
        undefined += usize::from(has_undefined(&text));
        farm.same_names(&text)?;
    }
    let line = format!("{good} books, {undefined} with a name that no rule defines: the same names with no folds and with {FOLDS}");
    if undefined > 0 {
        return Ok(line);
    }
    let lent = Lent::usual(0, &mut farm.random);
    Err(Difference::unexpected(MARK, lent, &Ok(Vec::new()), "the weekly schedule", "some books with an undefined name".to_string()))
}

fn has_undefined(text: &[u8]) -> bool {
    Judged::new(text).read.map_or(false, |book| {
        let defined = |name: &usize| book.rules.iter().any(|rule| rule.head == *name);
        book.rules.iter().any(|rule| !rule.body.iter().all(defined))
    })
}

impl Farm<'_> {
    fn same_names(&mut self, text: &[u8]) -> Result<(), Difference> {
        let (_, without) = self.ask(text, 0)?;
        let (lent, with) = self.ask(text, FOLDS)?;
        let names = |heard: &Heard| heard.as_ref().ok().map(|listing| names_listed(listing).to_vec());
        if names(&without).is_some() && names(&without) == names(&with) {
            return Ok(());
        }
        Err(Difference::unexpected(text, lent, &with, "the weekly schedule", show(&without)))
    }
}

/// What follows the head line.
fn names_listed(listing: &[u8]) -> &[u8] {
    let end = listing.iter().position(|&byte| byte == b'\n').map_or(listing.len(), |at| at + 1);
    &listing[end..]
}
