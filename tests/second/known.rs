//! The known books of the specification, with its figures, and books at its limits. The rounds of the two ladders, the chain and the
//! ring stand nowhere in it: they are worked out by hand from its definitions.

use crate::engine::{Judged, Refusal};
use crate::figures::{printed, refusal, ATOMS, FOLDS, LAST_LINE, LISTED, LONGEST_LISTING, MARK, NAMES, NAME_BYTES, RULES, TEXT_BYTES};
use crate::harness::{Difference, Harness, Lent};
use crate::literal;
use crate::random::Random;

/// Rules with `/` for a line end, as the specification prints them.
pub fn book(rules: &str) -> Vec<u8> {
    let mut text = MARK.to_vec();
    if !rules.is_empty() {
        text.extend(rules.replace('/', "\n").bytes());
        text.push(b'\n');
    }
    text
}

/// Lines of no listed form, `/` for a line end, with the number that is due for each of them: worked out by hand from the request for
/// three sorts of bad line. `N` stands for a name of full length, so that `Nn` is one byte too long.
const BAD_LINES: [(u64, &str); 6] = [
    (refusal::LINE, "a/a /\tN/N /:/ \t:a/:Nn/: \r/a::/a: :\r/a::Nn/a:b:/a:b c :d/a:N:"),
    (refusal::LINE, "a b/a\tb:c/a b\r/a b!c:/a Nn/N b:"),
    (refusal::LONG_NAME, "Nn/Nn:b/ \t Nn :/Nn\r/Nn b:/Nn::/a:Nn/a: b N\tNn /a:Nn b/a:b Nn!/a:Nn:/a:Nn # b/a:NN/Nn:Nn"),
    (refusal::BARRED_BYTE, " # a/a:b#/a #b:/!x/!:a b/@1/\0/a:b \0 c/\r/\t \r/a\r/a \r/N\r/a!:b/a:\r/a:b\r/a:b \r/a:b N@"),
    (refusal::BARRED_BYTE, "@Nn:/a:! Nn/a:\0:/a! b"),
    (refusal::BARRED_BYTE, "a:b,c/a;:/a\u{7f}:/[:/a:`/a:{b/\u{e4}:"),
];

type Rounds = &'static [(u64, usize)];

/// Rules, count of names, names held in number order, and the rounds for each fold number that the specification gives.
/// Where it gives none, the figure holds for every one.
const KNOWN: [(&str, usize, &str, Rounds); 11] = [
    ("", 0, "", &[(0, 1), (1, 1), (2, 1), (3, 1), (4, 1), (5, 1), (6, 1), (7, 1), (8, 1)]),
    ("a:", 1, "a", &[(0, 1), (1, 1), (2, 1), (3, 1), (4, 1), (5, 1), (6, 1), (7, 1), (8, 1)]),
    ("a:a", 1, "", &[(0, 1), (1, 1), (2, 1), (3, 1), (4, 1), (5, 1), (6, 1), (7, 1), (8, 1)]),
    ("p:q/q:p", 2, "", &[(0, 1), (8, 1)]),
    ("x:y z/y:", 3, "y", &[(0, 1), (1, 1)]),
    ("d:c/c:b/b:a/a:", 4, "d c b a", &[(0, 4), (1, 3), (2, 2)]),
    ("p:q/q:p r/r:s/s:", 4, "r s", &[(0, 2)]),
    (printed::RULES, printed::NAMES, printed::HELD, printed::ROUNDS),
    ("a:/a:b", 2, "a", &[(0, 2)]),
    ("P:q/Q:", 2, "p q", &[(0, 2)]),
    // As printed, remarks and blanks added by hand.
    ("# job/P : q/\t/q: p r  p/q:S/  s:\t", printed::NAMES, printed::HELD, printed::ROUNDS),
];

/// The rounds by folds where so many steps follow each other and one round more is made: each fold halves the steps.
fn halved(steps: usize, more: usize) -> Vec<(u64, usize)> {
    (0..=FOLDS).map(|folds| (folds, more + steps.div_ceil(1 << folds))).collect()
}

struct Cases<'a> {
    harness: &'a mut Harness,
    random: Random,
    count: usize,
}

pub fn run(harness: &mut Harness, seed: u64) -> Result<String, Difference> {
    let mut cases = Cases { harness, random: Random::new(seed, 1 << 40), count: 0 };
    for (rules, names, held, rounds) in KNOWN {
        let held: Vec<String> = held.split_whitespace().map(str::to_string).collect();
        cases.listed(&book(rules), names, &held, rounds)?;
    }
    cases.held_only("p:q s t/q:p t/s:t/t:", 4, "s\nt\n")?;
    cases.rows_and_counts()?;
    cases.limits()?;
    cases.refusals()?;
    let typed = cases.count;
    cases.bytes()?;
    let swept = cases.count - typed;
    Ok(format!("{typed} calls, figures typed by hand; each byte value in each part of a line, {swept} calls: alike"))
}

impl Cases<'_> {
    fn expect(&mut self, text: &[u8], folds: u64, expected: Result<String, (u64, u64)>) -> Result<(), Difference> {
        let lent = Lent::usual(folds, &mut self.random);
        let heard = self.harness.check_text(text, lent)?;
        self.count += 1;
        let expected = expected.map(String::into_bytes).map_err(|(number, line)| Refusal { number, line });
        if heard == expected {
            Ok(())
        } else {
            Err(Difference::unexpected(text, lent, &heard, "a known book", crate::harness::show(&expected)))
        }
    }

    fn listed(&mut self, text: &[u8], names: usize, held: &[String], rounds: &[(u64, usize)]) -> Result<(), Difference> {
        for (folds, rounds) in rounds {
            let mut listing = format!("{LISTED} names={names} held={} folds={folds} rounds={rounds}\n", held.len());
            held.iter().for_each(|name| listing += &format!("{name}\n"));
            self.expect(text, *folds, Ok(listing))?;
        }
        Ok(())
    }

    fn refused(&mut self, text: &[u8], number: u64, line: u64) -> Result<(), Difference> {
        self.expect(text, 0, Err((number, line)))?;
        self.expect(text, FOLDS, Err((number, line)))
    }

    /// A book for which the specification gives no rounds.
    fn held_only(&mut self, rules: &str, names: usize, held: &str) -> Result<(), Difference> {
        let text = book(rules);
        for folds in 0..=FOLDS {
            let lent = Lent::usual(folds, &mut self.random);
            let heard = self.harness.check_text(&text, lent)?;
            self.count += 1;
            let listing = String::from_utf8(heard.clone().unwrap_or_default()).unwrap_or_default();
            let head = format!("{LISTED} names={names} held={} folds={folds} rounds=", held.lines().count());
            let names = listing.split_once('\n').map_or("", |(_, names)| names);
            if !listing.starts_with(&head) || names != held {
                return Err(Difference::unexpected(&text, lent, &heard, "a known book", format!("{head}.. {held:?}")));
            }
        }
        Ok(())
    }

    /// What the call does not show, of the second engine: c and h of the printed book, rows after one fold.
    fn rows_and_counts(&mut self) -> Result<(), Difference> {
        let printed = Judged::new(&book(printed::RULES));
        let folded = Judged::new(&book("p:q s t/q:p t/s:t/t:"));
        let counts = printed.system.map(|system| (system.all.len(), system.c, system.h));
        let rows = folded.system.map(|system| literal::fold(&literal::rows(&system)));
        let members = |row: &Vec<bool>| (0..row.len()).filter(|&atom| row[atom]).collect::<Vec<_>>();
        // p, q, s, t are 0 to 3.
        let as_printed = rows.map_or(false, |rows| members(&rows[0]) == [0, 3] && members(&rows[1]) == [1, 2, 3]);
        if counts == Some((printed::ATOMS, printed::C, printed::H)) && as_printed {
            return Ok(());
        }
        let lent = Lent::usual(1, &mut self.random);
        let nothing = Ok(Vec::new());
        let expected = format!("{} atoms, c {}, h {}, p t, q s t", printed::ATOMS, printed::C, printed::H);
        Err(Difference::unexpected(MARK, lent, &nothing, "the second engine's c, h or rows", expected))
    }

    fn limits(&mut self) -> Result<(), Difference> {
        let heads = (ATOMS - 1) / 3;
        let (text, held) = ladder(heads, ATOMS - 1 - 3 * heads);
        self.listed(&text, held.len(), &held, &[(0, 2 * heads + 2), (FOLDS, 2 * heads + 2)])?;
        let heads = ATOMS / 4;
        // Six names and six other bytes for each head.
        let long = NAME_BYTES.min((TEXT_BYTES - MARK.len()) / (6 * heads) - 1);
        let (text, held) = ladder_with_names(heads, long);
        self.listed(&text, 2 * heads, &held, &[(0, 3 * heads + 1), (FOLDS, 2 * heads + 2)])?;
        self.long_listing(&text, LONGEST_LISTING - NAMES * (NAME_BYTES - long))?;
        let (text, held) = chain();
        self.listed(&text, NAMES, &held, &halved(NAMES - 1, 1))?;
        let (text, held) = ring();
        self.listed(&text, NAMES, &held, &halved(NAMES, 2))?;
        let long = "n".repeat(NAME_BYTES);
        self.listed(&book(&format!("{long}:")), 1, std::slice::from_ref(&long), &[(0, 1), (FOLDS, 1)])?;
        self.refused(&book(&format!("{long}n:")), refusal::LONG_NAME, 2)?;
        self.refused(&book(&format!("a:/b: {long}n a")), refusal::LONG_NAME, 3)?;
        // Names with two rules each and as many undefined ones; then one helper more.
        let rules: Vec<String> = (0..ATOMS / 4).map(|i| format!("a{i}:b{i}/a{i}:a{i}")).collect();
        let rules = rules.join("/");
        self.listed(&book(&rules), ATOMS / 2, &[], &[(0, 1), (FOLDS, 1)])?;
        self.refused(&book(&format!("{rules}/a0:")), refusal::ATOMS, 0)
    }

    /// A book whose listing is that long without folds.
    fn long_listing(&mut self, text: &[u8], length: usize) -> Result<(), Difference> {
        let lent = Lent::usual(0, &mut self.random);
        let heard = self.harness.check_text(text, lent)?;
        if heard.as_ref().map_or(0, Vec::len) == length {
            return Ok(());
        }
        Err(Difference::unexpected(text, lent, &heard, "a long listing", format!("{length} bytes")))
    }

    fn refusals(&mut self) -> Result<(), Difference> {
        self.refused(b"", refusal::MARK, 0)?;
        self.refused(b"DPB 0001", refusal::MARK, 0)?;
        self.refused(b"DPB 0002\n", refusal::MARK, 0)?;
        self.refused(b"DPB 0001\r\n", refusal::MARK, 0)?;
        self.refused(b"DPB 0001\na:", refusal::LAST_BYTE, 0)?;
        self.refused(b"DPB 0001\n:\na:", refusal::LAST_BYTE, 0)?;
        self.refused(&book("a:\r/b:"), refusal::BARRED_BYTE, 2)?;
        self.refused(&book("/#\r/a:\r"), refusal::BARRED_BYTE, 4)?;
        self.refused(&book("a:/ # no remark"), refusal::BARRED_BYTE, 3)?;
        self.expect(&book("a:"), FOLDS + 1, Err((refusal::FOLDS, 0)))?;
        self.expect(b"", FOLDS + 1, Err((refusal::FOLDS, 0)))?;
        self.refused(&vec![b'\n'; TEXT_BYTES + 1], refusal::LONG_TEXT, 0)?;
        self.refused(&vec![b'\n'; TEXT_BYTES], refusal::MARK, 0)?;
        self.expect(&vec![b'\n'; TEXT_BYTES + 1], FOLDS + 1, Err((refusal::LONG_TEXT, 0)))?;
        self.bad_lines()?;
        self.within_a_line()
    }

    /// Each in the midst of a book, and as its last line.
    fn bad_lines(&mut self) -> Result<(), Difference> {
        let full = "n".repeat(NAME_BYTES);
        for (number, lines) in BAD_LINES {
            for line in lines.split('/') {
                let line = line.replace('N', &full);
                self.refused(&book(&format!("x:y/{line}/y:")), number, 3)?;
                self.refused(&book(&format!("#///{line}")), number, 5)?;
            }
        }
        Ok(())
    }

    /// Lines downward, and in a line its form, then the rules, then the names.
    fn within_a_line(&mut self) -> Result<(), Difference> {
        let names = |count: usize| (0..count).map(|i| format!("n{i}")).collect::<Vec<_>>().join(" ");
        let (full, over) = (names(NAMES), names(NAMES + 1));
        self.listed(&book(&format!("n0: {full}")), NAMES, &[], &[(0, 1), (FOLDS, 1)])?;
        self.refused(&book(&format!("/n0: {over}")), refusal::NAMES, 3)?;
        let rules = |count: usize| vec!["a:"; count].join("/");
        // The mark is line 1: rule i is in line i + 1.
        let (full, last) = (rules(RULES), RULES as u64 + 1);
        self.refused(&book(&full), refusal::ATOMS, 0)?;
        self.refused(&book(&rules(RULES + 1)), refusal::RULES, last + 1)?;
        self.refused(&book(&format!("{full}/x: {over}")), refusal::RULES, last + 1)?;
        self.refused(&book(&format!("{}/x: {over}", rules(RULES - 1))), refusal::NAMES, last)?;
        let overlong = "n".repeat(NAME_BYTES + 1);
        for (number, fault) in [(refusal::LINE, ":"), (refusal::LONG_NAME, overlong.as_str()), (refusal::BARRED_BYTE, "\r")] {
            self.refused(&book(&format!("n0: {over} {fault}")), number, 2)?;
            self.refused(&book(&format!("n0: {over}/a: {fault}")), refusal::NAMES, 2)?;
            self.refused(&book(&format!("a: {fault}/n0: {over}")), number, 2)?;
            self.refused(&book(&format!("{full}/b: {fault}")), number, last + 1)?;
            self.refused(&book(&format!("{full}/x: {over} {fault}")), number, last + 1)?;
            self.refused(&book(&format!("{full}/#/b:/a: {fault}")), refusal::RULES, last + 2)?;
            self.refused(&book(&format!("a: {fault}/{full}/a:")), number, 2)?;
        }
        // The last line that a text has room for.
        let mut text = MARK.to_vec();
        text.resize(TEXT_BYTES - 2, b'\n');
        text.extend_from_slice(b":\n");
        self.refused(&text, refusal::LINE, LAST_LINE as u64)
    }

    /// Each of the 256 byte values in each part of a line.
    fn bytes(&mut self) -> Result<(), Difference> {
        let frames = ["a@:", "@a:", "@:", "a@b:", "a:@", "a: b@", "a: b@c", "a@", "@", "#@", "a :@b :", " @", "a:b /@/c:", "b:/B:@"];
        for byte in 0..=255 {
            for frame in frames {
                let text: Vec<u8> = book(frame).iter().map(|&b| if b == b'@' { byte } else { b }).collect();
                let lent = Lent::usual(self.count as u64 % (FOLDS + 1), &mut self.random);
                let _ = self.harness.check_text(&text, lent)?;
                self.count += 1;
            }
        }
        Ok(())
    }
}

fn book_of(rules: &[String]) -> Vec<u8> {
    book(&rules.join("/"))
}

/// `f:`, then heads over the one before and over themselves, three atoms for each; then more facts.
fn ladder(heads: usize, more: usize) -> (Vec<u8>, Vec<String>) {
    let mut held = vec!["f".to_string()];
    let mut rules = vec!["f:".to_string()];
    for i in 0..heads {
        let head = format!("h{i}");
        rules.push(format!("{head}:{}", held[i]));
        rules.push(format!("{head}:{head}"));
        held.push(head);
    }
    for i in 0..more {
        rules.push(format!("more{i}:"));
        held.push(format!("more{i}"));
    }
    (book_of(&rules), held)
}

/// Heads of two rules with a name between each two, all names that long: four atoms for each, all held.
fn ladder_with_names(heads: usize, long: usize) -> (Vec<u8>, Vec<String>) {
    let (mut held, mut rules) = (Vec::new(), Vec::new());
    let name = |letter: char, i: usize| format!("{letter}{i:0width$}", width = long - 1);
    for i in 0..heads {
        let (head, under) = (name('h', i), name('u', i));
        rules.push(format!("{head}:{under}"));
        rules.push(format!("{head}:{head}"));
        let below = if i == 0 { String::new() } else { name('h', i - 1) };
        rules.push(format!("{under}:{below}"));
        held.extend([head, under]);
    }
    (book_of(&rules), held)
}

/// A ring of all names with a fact among the first one's two rules: a level for each name follows it, as long a way as there is. The
/// rounds are those of the definitions, taken step by step, and one for the head of two rules; the engine of tests/engine.py gives the same.
fn ring() -> (Vec<u8>, Vec<String>) {
    let mut held = vec!["p".to_string()];
    held.extend((1..NAMES).map(|i| format!("n{i}")));
    let mut rules = vec!["p:n1".to_string(), "p:".to_string()];
    rules.extend((1..NAMES - 1).map(|i| format!("n{i}:n{}", i + 1)));
    rules.push(format!("n{}:p", NAMES - 1));
    (book_of(&rules), held)
}

fn chain() -> (Vec<u8>, Vec<String>) {
    let held: Vec<String> = (0..NAMES).map(|i| format!("c{i}")).collect();
    let mut rules = vec!["c0:".to_string()];
    rules.extend((1..NAMES).map(|i| format!("c{i}:c{}", i - 1)));
    (book_of(&rules), held)
}
