//! The second engine: a rule book from its text to its listing, written from the specification alone.
//!
//! It shares no method with rows of words. The form of a line is judged as a whole, and the fault of a bad one is found by trying how its
//! first bytes could go on. Names live in a hash map, bodies are lists of numbers, and what is held is found by counting the conditions
//! that are still open. No row is ever folded: k folds of the "all" rows stand for 2^k steps through them,
//! so one round carries a work list on by at most 2^k levels (`System::rounds` says why that is the same).

use std::collections::HashMap;

use crate::figures::{refusal, ATOMS, FOLDS, LISTED, LISTING_BYTES, MARK, NAMES, NAME_BYTES, RULES, TEXT_BYTES};

#[derive(Clone, Copy, PartialEq, Eq, Debug)]
pub struct Refusal {
    pub number: u64,
    pub line: u64,
}

impl Refusal {
    pub fn code(self) -> u64 {
        self.number * 65_536 + self.line
    }
}

fn refused<T>(number: u64) -> Result<T, Refusal> {
    Err(Refusal { number, line: 0 })
}

// ---------------------------------------------------------------- reading

pub struct Rule {
    pub head: usize,
    pub body: Vec<usize>,
}

#[derive(Default)]
pub struct Book {
    pub names: Vec<Vec<u8>>,
    pub rules: Vec<Rule>,
}

/// A line of a listed form: nothing to keep, or the names of a rule, the head first.
pub enum Line<'a> {
    Nothing,
    Rule(Vec<&'a [u8]>),
}

fn blank(byte: u8) -> bool {
    byte == b' ' || byte == b'\t'
}

pub fn name_byte(byte: u8) -> bool {
    byte.is_ascii_alphanumeric() || byte == b'.' || byte == b'_' || byte == b'-'
}

fn is_name(run: &[u8]) -> bool {
    !run.is_empty() && run.len() <= NAME_BYTES && run.iter().all(|&b| name_byte(b))
}

fn runs(part: &[u8]) -> Vec<&[u8]> {
    part.split(|&b| blank(b)).filter(|run| !run.is_empty()).collect()
}

/// The form of a line without its end; none where it has no listed form.
pub fn form(line: &[u8]) -> Option<Line<'_>> {
    if line.first() == Some(&b'#') || line.iter().all(|&b| blank(b)) {
        return Some(Line::Nothing);
    }
    let colon = line.iter().position(|&b| b == b':')?;
    let mut names = runs(&line[..colon]);
    if names.len() != 1 {
        return None;
    }
    names.extend(runs(&line[colon + 1..]));
    if names.iter().all(|run| is_name(run)) {
        Some(Line::Rule(names))
    } else {
        None
    }
}

/// Whether some continuation of a line's first bytes is of a listed form. Blanks and a remark are as they stand, and so is a rule after
/// each byte from its colon on: what others can lack is a colon alone.
fn viable(prefix: &[u8]) -> bool {
    form(prefix).is_some() || form(&[prefix, b":"].concat()).is_some()
}

/// The number under which a line of no listed form is refused: by the first byte that leaves none possible, or by the line's end. What
/// begins a viable prefix is viable, so that the prefixes part in two.
pub fn fault(line: &[u8]) -> u64 {
    let lengths: Vec<usize> = (1..=line.len()).collect();
    let longest = lengths.partition_point(|&length| viable(&line[..length]));
    line.get(longest).map_or(refusal::LINE, |&byte| {
        let run = line[..=longest].iter().rev().take_while(|&&b| name_byte(b)).count();
        fault_at(byte, run)
    })
}

/// The number by the byte at fault and the length of the run of name bytes that it ends.
pub fn fault_at(byte: u8, run: usize) -> u64 {
    if !name_byte(byte) && !blank(byte) && byte != b':' {
        refusal::BARRED_BYTE
    } else if run == NAME_BYTES + 1 {
        refusal::LONG_NAME
    } else {
        refusal::LINE
    }
}

#[derive(Default)]
struct Reader {
    book: Book,
    numbers: HashMap<Vec<u8>, usize>,
}

impl Reader {
    /// The number of a name, by its first appearance; none for one past the limit.
    fn number(&mut self, spelled: &[u8]) -> Option<usize> {
        let name = spelled.to_ascii_lowercase();
        if let Some(&number) = self.numbers.get(&name) {
            return Some(number);
        }
        let number = self.book.names.len();
        if number == NAMES {
            return None;
        }
        self.numbers.insert(name.clone(), number);
        self.book.names.push(name);
        Some(number)
    }

    /// Takes one line in, or says which number refuses it: first its form, then the rule, then its names from left to right.
    fn take(&mut self, line: &[u8]) -> Result<(), u64> {
        let names = match form(line) {
            None => return Err(fault(line)),
            Some(Line::Nothing) => return Ok(()),
            Some(Line::Rule(names)) => names,
        };
        if self.book.rules.len() == RULES {
            return Err(refusal::RULES);
        }
        let mut numbers = Vec::with_capacity(names.len());
        for name in names {
            numbers.push(self.number(name).ok_or(refusal::NAMES)?);
        }
        let head = numbers.remove(0);
        numbers.sort_unstable();
        numbers.dedup();
        self.book.rules.push(Rule { head, body: numbers });
        Ok(())
    }
}

/// Reads a text whose length is within the limit.
pub fn read(text: &[u8]) -> Result<Book, Refusal> {
    if !text.starts_with(MARK) {
        return refused(refusal::MARK);
    }
    if text[text.len() - 1] != b'\n' {
        return refused(refusal::LAST_BYTE);
    }
    let mut reader = Reader::default();
    let lines = text[..text.len() - 1].split(|&b| b == b'\n');
    for (before, line) in lines.enumerate().skip(1) {
        let taken = reader.take(line);
        taken.map_err(|number| Refusal { number, line: before as u64 + 1 })?;
    }
    Ok(reader.book)
}

// ---------------------------------------------------------------- the plain way to the held names

/// The held names by counting: a rule fires when its last open condition is met, and each head is met once.
pub fn held(book: &Book) -> Vec<bool> {
    let mut used_by = vec![Vec::new(); book.names.len()];
    let mut open: Vec<usize> = book.rules.iter().map(|rule| rule.body.len()).collect();
    let mut work = Vec::new();
    for (number, rule) in book.rules.iter().enumerate() {
        for &name in &rule.body {
            used_by[name].push(number);
        }
        if rule.body.is_empty() {
            work.push(rule.head);
        }
    }
    let mut held = vec![false; book.names.len()];
    while let Some(name) = work.pop() {
        if held[name] {
            continue;
        }
        held[name] = true;
        for &rule in &used_by[name] {
            open[rule] -= 1;
            if open[rule] == 0 {
                work.push(book.rules[rule].head);
            }
        }
    }
    held
}

// ---------------------------------------------------------------- standardising

/// The standardised book: names first, then one helper for each rule of a head with several rules.
#[derive(Default)]
pub struct System {
    pub all: Vec<Vec<usize>>,
    pub any: Vec<Vec<usize>>,
    pub start: Vec<bool>,
    pub c: usize,
    pub h: usize,
    /// For each atom, the atoms without "any" row whose "all" row has it.
    in_all: Vec<Vec<usize>>,
    /// For each atom, the atoms whose "any" row has it.
    in_any: Vec<Vec<usize>>,
}

fn rules_by_head(book: &Book) -> Vec<Vec<usize>> {
    let mut by_head = vec![Vec::new(); book.names.len()];
    for (number, rule) in book.rules.iter().enumerate() {
        by_head[rule.head].push(number);
    }
    by_head
}

pub fn atoms(book: &Book) -> usize {
    let helpers = rules_by_head(book).iter().map(Vec::len).filter(|&rules| rules > 1).sum::<usize>();
    book.names.len() + helpers
}

impl System {
    pub fn of(book: &Book) -> System {
        let mut system = System::default();
        let by_head = rules_by_head(book);
        for (name, rules) in by_head.iter().enumerate() {
            match rules.as_slice() {
                [rule] => system.push_rule(&book.rules[*rule].body),
                _ => system.push(vec![name], false),
            }
        }
        for rule in &book.rules {
            if by_head[rule.head].len() > 1 {
                let helper = system.all.len();
                system.any[rule.head].push(helper);
                system.push_rule(&rule.body);
            }
        }
        system.h = system.any.iter().filter(|row| !row.is_empty()).count();
        system.index();
        system
    }

    fn push(&mut self, row: Vec<usize>, starts: bool) {
        self.all.push(row);
        self.any.push(Vec::new());
        self.start.push(starts);
    }

    fn push_rule(&mut self, body: &[usize]) {
        if body.is_empty() {
            self.push(vec![self.all.len()], true);
        } else {
            self.push(body.to_vec(), false);
            self.c += 1;
        }
    }

    fn index(&mut self) {
        self.in_all = vec![Vec::new(); self.all.len()];
        self.in_any = vec![Vec::new(); self.all.len()];
        for atom in 0..self.all.len() {
            if self.any[atom].is_empty() {
                for &needed in &self.all[atom] {
                    self.in_all[needed].push(atom);
                }
            }
            for &helper in &self.any[atom] {
                self.in_any[helper].push(atom);
            }
        }
    }

    /// The last set and the rounds, for any number of folds that is allowed.
    ///
    /// Let A(v) be the atoms whose unfolded "all" row lies within v. A row folded k times is what 2^k steps through the rows reach,
    /// so it lies within v exactly where its atom is in A applied 2^k times to v. A row that is its atom alone keeps the atom
    /// just as v has it: its count of open conditions is one, and only the atom itself could close it. The start set lies within
    /// its own A, and so does every later set, as an atom with an "any" row stays once it is in. So A only adds atoms, and
    /// A applied 2^k times is reached by 2^k levels of a work list. What the last level added, and the atoms that came in by
    /// their "any" row, are counted off in the next round.
    pub fn rounds(&self, folds: u64) -> (Vec<bool>, usize) {
        let levels = 1usize << folds;
        let mut set = self.start.clone();
        let mut open: Vec<usize> = self.all.iter().map(Vec::len).collect();
        let mut latest: Vec<usize> = (0..set.len()).filter(|&atom| set[atom]).collect();
        let mut fresh = latest.clone();
        let mut rounds = 0;
        loop {
            rounds += 1;
            let by_any = self.meeting(&latest, &set);
            latest.clear();
            for _ in 0..levels {
                if fresh.is_empty() {
                    break;
                }
                fresh = self.level(&fresh, &mut open, &mut set);
                latest.extend_from_slice(&fresh);
            }
            for atom in by_any {
                if !set[atom] {
                    set[atom] = true;
                    fresh.push(atom);
                    latest.push(atom);
                }
            }
            if latest.is_empty() {
                return (set, rounds);
            }
        }
    }

    /// Atoms not yet in the set whose "any" row has one of the latest.
    fn meeting(&self, latest: &[usize], set: &[bool]) -> Vec<usize> {
        let met = latest.iter().flat_map(|&atom| self.in_any[atom].iter().copied());
        met.filter(|&head| !set[head]).collect()
    }

    /// One level: counts the fresh atoms off and puts in what has no open condition left.
    fn level(&self, fresh: &[usize], open: &mut [usize], set: &mut [bool]) -> Vec<usize> {
        let mut next = Vec::new();
        for &atom in fresh {
            for &user in &self.in_all[atom] {
                open[user] -= 1;
                if open[user] == 0 && !set[user] {
                    next.push(user);
                }
            }
        }
        for &atom in &next {
            set[atom] = true;
        }
        next
    }
}

// ---------------------------------------------------------------- answering

/// A text judged once; it can then be answered for any fold number and any length of the listing area.
pub struct Judged {
    too_long: bool,
    pub read: Result<Book, Refusal>,
    pub atoms: usize,
    pub system: Option<System>,
    held: Vec<bool>,
}

/// What the engine says, and in `doubt` what it found wrong with itself.
pub struct Answer {
    pub said: Result<Vec<u8>, Refusal>,
    pub doubt: Option<&'static str>,
}

impl Judged {
    pub fn new(text: &[u8]) -> Judged {
        let too_long = text.len() > TEXT_BYTES;
        let read = if too_long { refused(refusal::LONG_TEXT) } else { read(text) };
        let mut judged = Judged { too_long, read, atoms: 0, system: None, held: Vec::new() };
        if let Ok(book) = &judged.read {
            judged.atoms = atoms(book);
            judged.held = held(book);
            if judged.atoms <= ATOMS {
                judged.system = Some(System::of(book));
            }
        }
        judged
    }

    /// The causes in their order: the area, the length, the folds, then what the text itself is refused for.
    pub fn answer(&self, folds: u64, area: usize) -> Answer {
        if area < LISTING_BYTES {
            return no(refusal::SHORT_AREA);
        }
        if self.too_long {
            return no(refusal::LONG_TEXT);
        }
        if folds > FOLDS {
            return no(refusal::FOLDS);
        }
        match (&self.read, &self.system) {
            (Err(refusal), _) => Answer { said: Err(*refusal), doubt: None },
            (Ok(_), None) => no(refusal::ATOMS),
            (Ok(book), Some(system)) => self.solve(book, system, folds),
        }
    }

    fn solve(&self, book: &Book, system: &System, folds: u64) -> Answer {
        let (set, rounds) = system.rounds(folds);
        let doubt = self.doubt(system, &set, rounds, folds);
        Answer { said: Ok(listing(book, &self.held, folds, rounds)), doubt }
    }

    fn doubt(&self, system: &System, set: &[bool], rounds: usize, folds: u64) -> Option<&'static str> {
        if set[..self.held.len()] != self.held[..] {
            Some("work list and rounds hold different names")
        } else if rounds > system.c + system.h + 1 {
            Some("more than c + h + 1 rounds")
        } else if 1 << folds >= system.c && rounds > 2 * system.h + 2 {
            Some("more than 2h + 2 rounds")
        } else {
            None
        }
    }
}

fn no(number: u64) -> Answer {
    Answer { said: refused(number), doubt: None }
}

fn listing(book: &Book, held: &[bool], folds: u64, rounds: usize) -> Vec<u8> {
    let count = held.iter().filter(|&&is| is).count();
    let names = book.names.len();
    let mut text = format!("{LISTED} names={names} held={count} folds={folds} rounds={rounds}\n").into_bytes();
    for (name, _) in book.names.iter().zip(held).filter(|(_, &is)| is) {
        text.extend_from_slice(name);
        text.push(b'\n');
    }
    text
}
