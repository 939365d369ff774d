//! How the names of a random book are spelled: all of them differ, whatever the capitals.

use crate::figures::NAME_BYTES;
use crate::random::Random;

#[derive(Clone, Copy)]
pub enum Spelling {
    Letters,
    Marks,
    Any,
    Long,
    Runs,
    Drawn,
}

/// Names 0, 1, .. in small letters.
pub fn names(count: usize, spelling: Spelling, r: &mut Random) -> Vec<Vec<u8>> {
    match spelling {
        Spelling::Letters => (0..count).map(|name| numeral(name, b"abcdefghijklmnopqrstuvwxyz")).collect(),
        Spelling::Marks => (0..count).map(|name| numeral(name, b"._-")).collect(),
        Spelling::Any => (0..count).map(|name| numeral(name, b"-z.9_0a")).collect(),
        Spelling::Long => (0..count).map(long).collect(),
        Spelling::Runs => (0..count).map(run).collect(),
        Spelling::Drawn => drawn(count, r),
    }
}

// ---------------------------------------------------------------- by the name's number

/// The name's number written with the given digits; different numbers differ, whatever the digits.
fn numeral(number: usize, digits: &[u8]) -> Vec<u8> {
    let mut name = Vec::new();
    let mut rest = number + 1;
    while rest > 0 {
        rest -= 1;
        name.push(digits[rest % digits.len()]);
        rest /= digits.len();
    }
    name
}

/// Alike but for the first or the last bytes.
fn long(name: usize) -> Vec<u8> {
    let digits = numeral(name, b"abcdefghij");
    let mut long = vec![b'x'; NAME_BYTES - digits.len()];
    let at = if name % 2 == 0 { long.len() } else { 0 };
    long.splice(at..at, digits);
    long
}

fn run(name: usize) -> Vec<u8> {
    vec![b"abcdefgh"[name / NAME_BYTES % 8]; name % NAME_BYTES + 1]
}

// ---------------------------------------------------------------- drawn

/// Few bytes give names that are alike by themselves.
const BYTES: [&[u8]; 4] = [LETTERS, LETTERS, b"0123456789.x", b"ab"];
const LETTERS: &[u8] = b"abcdefghijklmnopqrstuvwxyz0123456789._-";

/// Any lengths and bytes, so that any two names may share a bucket of an index. Many names are made from one before: a search that
/// leaves out a part of what makes two names one, their length or some byte, then takes them for one.
fn drawn(count: usize, r: &mut Random) -> Vec<Vec<u8>> {
    let bytes = r.pick(&BYTES);
    let mut names: Vec<Vec<u8>> = Vec::with_capacity(count);
    while names.len() < count {
        let name = if names.is_empty() || r.one_in(3) { fresh(bytes, r) } else { relative(&names[r.below(names.len())], bytes, r) };
        if !names.contains(&name) {
            names.push(name);
        }
    }
    names
}

fn fresh(bytes: &[u8], r: &mut Random) -> Vec<u8> {
    let mut name = Vec::new();
    extend(&mut name, r.between(1, NAME_BYTES), bytes, r);
    name
}

/// One that begins the name, one that the name begins, or one of the same length that differs in a byte or two. It may be the name.
fn relative(name: &[u8], bytes: &[u8], r: &mut Random) -> Vec<u8> {
    let mut name = name.to_vec();
    let (one, other) = (r.below(name.len()), r.below(name.len()));
    match r.below(6) {
        0 => name.truncate(one + 1),
        // Where a comparison of eight bytes at a time comes to an end.
        1 => name.truncate(8 * r.between(1, NAME_BYTES / 8 - 1)),
        2 => extend(&mut name, r.between(1, NAME_BYTES), bytes, r),
        3 => extend(&mut name, 8 * r.between(1, NAME_BYTES / 8), bytes, r),
        4 => name[one] = r.pick(LETTERS),
        _ => name.swap(one, other),
    }
    name
}

/// Adds bytes up to that length; a longer name stays.
fn extend(name: &mut Vec<u8>, length: usize, bytes: &[u8], r: &mut Random) {
    while name.len() < length {
        name.push(r.pick(bytes));
    }
}
