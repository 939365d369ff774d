//! The specification's definitions, word for word and slow: the fault of a bad line found by every short way on, byte after byte, rows
//! folded as sets, models found by trying every set of names. They keep the second engine honest on small books.

use crate::engine::{fault_at, form, name_byte, Book, System};
use crate::figures::refusal;

/// One byte of each sort that a line can have, and more than one of some.
const SORTS: &[u8] = b"a0 \t:#\r";

/// Every line of up to that many bytes out of these sorts.
pub fn short_lines(length: usize) -> Vec<Vec<u8>> {
    let mut lines = vec![Vec::new()];
    let mut first = 0;
    for _ in 0..length {
        let end = lines.len();
        for shorter in first..end {
            for &byte in SORTS {
                lines.push([lines[shorter].as_slice(), &[byte]].concat());
            }
        }
        first = end;
    }
    lines
}

/// The number of a line of no listed form: each byte is looked at in turn, whether one of the ways on leads from it to a listed form.
pub fn fault(line: &[u8], ways_on: &[Vec<u8>]) -> u64 {
    let mut run = 0;
    for (at, &byte) in line.iter().enumerate() {
        run = if name_byte(byte) { run + 1 } else { 0 };
        if !ways_on.iter().any(|way| form(&[&line[..=at], way].concat()).is_some()) {
            return fault_at(byte, run);
        }
    }
    refusal::LINE
}

pub type Rows = Vec<Vec<bool>>;

/// The "all" rows before any fold, each as one flag per atom.
pub fn rows(system: &System) -> Rows {
    let atoms = system.all.len();
    let mut rows = vec![vec![false; atoms]; atoms];
    for (row, members) in rows.iter_mut().zip(&system.all) {
        for &member in members {
            row[member] = true;
        }
    }
    rows
}

/// New row i is the union of the old rows j for all j in old row i.
pub fn fold(old: &Rows) -> Rows {
    let mut new = vec![vec![false; old.len()]; old.len()];
    for i in 0..old.len() {
        for j in (0..old.len()).filter(|&j| old[i][j]) {
            for atom in (0..old.len()).filter(|&atom| old[j][atom]) {
                new[i][atom] = true;
            }
        }
    }
    new
}

fn round(system: &System, rows: &Rows, set: &[bool]) -> Vec<bool> {
    let next = |atom: usize| {
        let any = &system.any[atom];
        if any.is_empty() {
            rows[atom].iter().zip(set).all(|(&needed, &is)| is || !needed)
        } else {
            any.iter().any(|&helper| set[helper])
        }
    };
    (0..set.len()).map(next).collect()
}

/// The last set and the rounds over these rows; none where they go on for longer than any count of atoms allows.
pub fn rounds(system: &System, rows: &Rows) -> Option<(Vec<bool>, usize)> {
    let mut set = system.start.clone();
    for count in 1..=set.len() + 1 {
        let next = round(system, rows, &set);
        if next == set {
            return Some((set, count));
        }
        set = next;
    }
    None
}

/// The names in every model, where a model has the head of each rule whose body lies within it.
pub fn in_every_model(book: &Book) -> Vec<bool> {
    let mut common = (1u32 << book.names.len()) - 1;
    for set in 0..1u32 << book.names.len() {
        if is_model(book, set) {
            common &= set;
        }
    }
    (0..book.names.len()).map(|name| common >> name & 1 == 1).collect()
}

fn is_model(book: &Book, set: u32) -> bool {
    let has = |name: usize| set >> name & 1 == 1;
    book.rules.iter().all(|rule| has(rule.head) || !rule.body.iter().all(|&name| has(name)))
}
