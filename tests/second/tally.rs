//! How often each number came back, each limit was met from each side and names began each other, over the random books.

use crate::engine::{form, name_byte, Book, Judged, Refusal};
use crate::figures::{refusal, ATOMS, FOLDS, LISTING_BYTES, NAMES, NAME_BYTES, RULES, TEXT_BYTES};
use crate::harness::Lent;

const LIMITS: [(&str, usize); 7] = [
    ("text bytes", TEXT_BYTES),
    ("names", NAMES),
    ("rules", RULES),
    ("atoms", ATOMS),
    ("folds", FOLDS as usize),
    ("name bytes", NAME_BYTES),
    ("listing area", LISTING_BYTES - 1),
];

#[derive(Default)]
pub struct Tally {
    /// Listed, then each refusal that the call returns.
    numbers: [u64; refusal::RETURNED.len() + 1],
    within: [u64; 7],
    past: [u64; 7],
    rounds: [usize; FOLDS as usize + 1],
    most_rounds: usize,
    accepted: u64,
    moved: u64,
    begun: u64,
}

impl Tally {
    /// Counts one call in which the engines agreed. Within a limit counts what the call let pass at just that limit (for the rules
    /// that is the reader: the atoms are then always too many); past it counts what was refused for being just one more.
    pub fn count(&mut self, text: &[u8], judged: &Judged, lent: Lent, heard: Result<(), Refusal>) {
        let number = heard.map_or_else(|refusal| refusal.number, |()| 0);
        let place = refusal::RETURNED.iter().position(|&returned| returned == number).map_or(0, |place| place + 1);
        self.numbers[place] += 1;
        let longest = |book: &Book| book.names.iter().map(Vec::len).max().unwrap_or(0);
        let figures = |book: &Book| (book.names.len(), book.rules.len(), longest(book));
        let (names, rules, longest) = judged.read.as_ref().map_or((0, 0, 0), figures);
        let sides = [
            (number == 0 && text.len() == TEXT_BYTES, number == refusal::LONG_TEXT && text.len() == TEXT_BYTES + 1),
            (number == 0 && names == NAMES, number == refusal::NAMES),
            (number == refusal::ATOMS && rules == RULES, number == refusal::RULES),
            (number == 0 && judged.atoms == ATOMS, number == refusal::ATOMS && judged.atoms == ATOMS + 1),
            (number == 0 && lent.folds == FOLDS, number == refusal::FOLDS && lent.folds == FOLDS + 1),
            (
                number == 0 && longest == NAME_BYTES,
                number == refusal::LONG_NAME && heard.map_or_else(|refusal| one_byte_too_long(text, refusal), |()| false),
            ),
            (number == refusal::SHORT_AREA && lent.area == LISTING_BYTES - 1, number == 0 && lent.area == LISTING_BYTES),
        ];
        if number == 0 && lent.folds == FOLDS {
            self.begun += u64::from(judged.read.as_ref().map_or(false, |book| one_begins_another(&book.names)));
        }
        for (limit, (within, past)) in sides.into_iter().enumerate() {
            self.within[limit] += u64::from(within);
            self.past[limit] += u64::from(past);
        }
    }

    /// Takes note of the rounds in a listing's head line.
    pub fn count_rounds(&mut self, folds: u64, listing: &[u8]) {
        let head = String::from_utf8_lossy(listing);
        let rounds = head.lines().next().and_then(|line| line.rsplit('=').next()).and_then(|rounds| rounds.parse().ok());
        self.rounds[folds as usize] = rounds.unwrap_or(0);
        self.most_rounds = self.most_rounds.max(self.rounds[folds as usize]);
        if folds == FOLDS {
            self.accepted += 1;
            self.moved += u64::from(self.rounds[0] != self.rounds[FOLDS as usize]);
        }
    }

    /// How far the draw reaches: a draw of books that all end in round one would compare little.
    pub fn reach(&self) -> String {
        format!("{} books accepted, up to {} rounds, in {} the folds change the rounds", self.accepted, self.most_rounds, self.moved)
    }

    /// Prints the counts and says whether each is above zero.
    pub fn print(&self) -> bool {
        let numbers = [0].iter().chain(&refusal::RETURNED).zip(&self.numbers);
        let numbers: Vec<String> = numbers.map(|(number, count)| format!("{number}: {count}")).collect();
        println!("numbers: {}", numbers.join(", "));
        let limits: Vec<String> = (0..LIMITS.len()).map(|limit| self.limit(limit)).collect();
        println!("limits: {}", limits[..4].join("; "));
        println!("limits: {}", limits[4..].join("; "));
        println!("names: in {} books accepted one begins another", self.begun);
        self.numbers.iter().chain(&self.within).chain(&self.past).chain([&self.begun]).all(|&count| count > 0)
    }

    fn limit(&self, limit: usize) -> String {
        let (name, at) = LIMITS[limit];
        format!("{name} {at}: {}, {}: {}", self.within[limit], at + 1, self.past[limit])
    }
}

/// In order, a name comes just before those that it begins.
fn one_begins_another(names: &[Vec<u8>]) -> bool {
    let mut names: Vec<&[u8]> = names.iter().map(Vec::as_slice).collect();
    names.sort_unstable();
    names.windows(2).any(|pair| pair[1].starts_with(pair[0]))
}

/// Whether the refused line has a name of one byte too many and would have a listed form with one byte less.
fn one_byte_too_long(text: &[u8], refusal: Refusal) -> bool {
    let line = text.split(|&byte| byte == b'\n').nth(refusal.line as usize - 1).unwrap_or(&[]);
    let mut start = 0;
    for at in 0..=line.len() {
        if at == line.len() || !name_byte(line[at]) {
            if at - start == NAME_BYTES + 1 {
                let less = [&line[..start], &line[start + 1..]].concat();
                return form(&less).is_some();
            }
            start = at + 1;
        }
    }
    false
}
