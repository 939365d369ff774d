//! The second engine against the definitions, on books that are small enough for them.

use crate::books;
use crate::engine::{fault, form, held, Judged, System};
use crate::figures::{FOLDS, MARK, NAME_BYTES};
use crate::harness::{Difference, Harness, Lent};
use crate::literal;
use crate::random::Random;

/// Names up to which every set of names is tried, and atoms up to which rows are folded.
const FEW_NAMES: usize = 10;
const FEW_ATOMS: usize = 100;

/// Bytes up to which every line is tried, after nothing and after long runs of name bytes, and every way on from it.
const FEW_BYTES: usize = 4;
const WAY_ON: usize = 2;

/// What the second engine gets wrong against the definitions, taken word for word. A large book is not looked at.
pub fn fault_of_second(text: &[u8]) -> Option<String> {
    let judged = Judged::new(text);
    match (&judged.read, &judged.system) {
        (Ok(book), _) if book.names.len() <= FEW_NAMES && held(book) != literal::in_every_model(book) => {
            Some("the work list's names are not those in every model".to_string())
        }
        (_, Some(system)) if judged.atoms <= FEW_ATOMS => fault_of_levels(system),
        _ => None,
    }
}

fn fault_of_levels(system: &System) -> Option<String> {
    let mut rows = literal::rows(system);
    for folds in 0..=FOLDS {
        if Some(system.rounds(folds)) != literal::rounds(system, &rows) {
            return Some(format!("levels and folded rows differ at {folds} folds"));
        }
        rows = literal::fold(&rows);
    }
    None
}

/// The bad lines among all short ones, and the first of them whose fault the second engine gets wrong.
fn faults() -> (usize, Option<Vec<u8>>) {
    let ways_on = literal::short_lines(WAY_ON);
    let mut bad = 0;
    for last in literal::short_lines(FEW_BYTES) {
        let long = |head: &str, length: usize| [head.as_bytes(), &vec![b'n'; length], last.as_slice()].concat();
        let lines = [last.clone(), long("", NAME_BYTES - 1), long("", NAME_BYTES), long("a:", NAME_BYTES - 1), long("a: b ", NAME_BYTES)];
        for line in lines.into_iter().filter(|line| form(line).is_none()) {
            bad += 1;
            if fault(&line) != literal::fault(&line, &ways_on) {
                return (bad, Some(line));
            }
        }
    }
    (bad, None)
}

pub fn run(harness: &mut Harness, seed: u64) -> Result<String, Difference> {
    let mut random = Random::new(seed, 5 << 40);
    let (bad, wrong) = faults();
    if let Some(line) = wrong {
        let (text, lent) = ([MARK, &line, b"\n"].concat(), Lent::usual(0, &mut random));
        let heard = harness.check_text(&text, lent)?;
        let what = "a byte that leaves no way on, taken byte after byte".to_string();
        return Err(Difference::unexpected(&text, lent, &heard, "the second engine", what));
    }
    let (mut tried, mut folded) = (0, 0);
    for count in 0..12_000 {
        let text = if count % 12 == 0 { books::middling(&mut random) } else { books::small(&mut random) };
        if let Some(what) = fault_of_second(&text) {
            let lent = Lent::usual(0, &mut random);
            let heard = harness.check_text(&text, lent)?;
            return Err(Difference::unexpected(&text, lent, &heard, "the second engine", what));
        }
        let judged = Judged::new(&text);
        tried += usize::from(judged.read.map_or(false, |book| book.names.len() <= FEW_NAMES));
        folded += usize::from(judged.system.is_some() && judged.atoms <= FEW_ATOMS);
    }
    let line = format!("the second engine finds the faults that every short way on leaves ({bad} bad lines)");
    let line = format!("{line}, holds the names in every model ({tried} books)");
    Ok(format!("{line} and counts rounds as over folded rows ({folded} books, folds 0 to {FOLDS})"))
}
