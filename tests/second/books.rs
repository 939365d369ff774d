//! Random books: first which rules there are, then how they are spelled, then what is damaged.

use crate::damage;
use crate::figures::{ATOMS, MARK, NAMES, NAME_BYTES, RULES, TEXT_BYTES};
use crate::naming::{self, Spelling};
use crate::random::Random;

/// Rules over names 0, 1, ..; the reader may number them otherwise.
#[derive(Default)]
struct Draft {
    names: usize,
    rules: Vec<(usize, Vec<usize>)>,
}

/// A text, good or bad.
pub fn draw(r: &mut Random) -> Vec<u8> {
    let mut text = match r.below(40) {
        0..=5 => soup(r),
        6..=8 => at_a_limit(r),
        9 => sized(r),
        10 => odd_length(r),
        11..=14 => large(r),
        15..=20 => middling(r),
        _ => small(r),
    };
    if r.one_in(4) {
        for _ in 0..r.pick(&[1, 1, 1, 2, 3]) {
            damage::hurt(&mut text, r);
        }
    }
    text
}

/// A small book of the grammar.
pub fn small(r: &mut Random) -> Vec<u8> {
    let draft = shape(r, 6, 10);
    spell(&draft, r)
}

pub fn middling(r: &mut Random) -> Vec<u8> {
    let draft = shape(r, 40, 60);
    spell(&draft, r)
}

fn large(r: &mut Random) -> Vec<u8> {
    let draft = shape(r, NAMES, 160);
    spell(&draft, r)
}

// ---------------------------------------------------------------- shapes

fn shape(r: &mut Random, most_names: usize, most_rules: usize) -> Draft {
    let names = if r.one_in(8) { most_names } else { r.between(1, most_names) };
    let mut draft = match r.below(9) {
        0..=1 => scatter(r, names, most_rules),
        2..=3 => layers(r, names, most_rules),
        4 => chain(r, names),
        5 => ring(r, names),
        6 => stairs(r, names),
        7 => wide(r, names),
        _ => dense(r, names.min(24), most_rules.min(30)),
    };
    sprinkle(&mut draft, r);
    draft
}

fn some_names(r: &mut Random, below: usize) -> Vec<usize> {
    let count = r.pick(&[0, 0, 1, 1, 1, 1, 2, 2, 3, 5]);
    (0..count).map(|_| r.below(below)).collect()
}

/// Any head over any names: loops, undefined names, several rules for one head.
fn scatter(r: &mut Random, names: usize, most: usize) -> Draft {
    let rules = r.between(0, most);
    let rules = (0..rules).map(|_| (r.below(names), some_names(r, names))).collect();
    Draft { names, rules }
}

/// Bodies from lower names only, so that much is held.
fn layers(r: &mut Random, names: usize, most: usize) -> Draft {
    let mut rules = vec![(0, Vec::new())];
    for _ in 0..r.between(0, most) {
        let head = r.below(names);
        let body = if head == 0 { Vec::new() } else { some_names(r, head) };
        rules.push((head, body));
    }
    Draft { names, rules }
}

/// Each name over the one before; the first is mostly a fact.
fn chain(r: &mut Random, names: usize) -> Draft {
    let mut rules: Vec<_> = (1..names).map(|name| (name, vec![name - 1])).collect();
    if !r.one_in(4) {
        rules.push((0, Vec::new()));
    }
    Draft { names, rules }
}

/// Each name over the one before and the first over the last; sometimes with a way in.
fn ring(r: &mut Random, names: usize) -> Draft {
    let mut rules: Vec<_> = (0..names).map(|name| (name, vec![(name + names - 1) % names])).collect();
    if r.one_in(2) {
        rules.push((r.below(names), Vec::new()));
    }
    Draft { names, rules }
}

/// A way up in which single rules and heads with several rules take turns; the rounds depend on every fold.
fn stairs(r: &mut Random, names: usize) -> Draft {
    let mut rules = vec![(0, Vec::new())];
    let alternatives = r.between(1, 6);
    for name in 1..names {
        let mut body = vec![name - 1];
        if r.one_in(3) {
            body.push(r.below(name));
        }
        rules.push((name, body));
        if r.one_in(alternatives) {
            let body = match r.below(4) {
                0 => vec![name],
                1 => vec![r.below(names)],
                2 => vec![r.below(name)],
                _ => vec![names - 1, name - 1],
            };
            rules.push((name, body));
        }
    }
    Draft { names, rules }
}

/// Long bodies.
fn dense(r: &mut Random, names: usize, most: usize) -> Draft {
    let one_in = r.between(1, 4);
    let mut rules = Vec::new();
    for _ in 0..r.between(1, most) {
        let mut body: Vec<usize> = (0..names).filter(|_| r.one_in(one_in)).collect();
        r.shuffle(&mut body);
        rules.push((r.below(names), body));
    }
    for name in 0..names {
        if r.one_in(3) {
            rules.push((name, Vec::new()));
        }
    }
    Draft { names, rules }
}

/// Heads over nearly all names, of which nearly all are facts: each name of a body decides.
fn wide(r: &mut Random, names: usize) -> Draft {
    let mut rules = Vec::new();
    let missing = [r.below(names), r.below(3 * names)];
    for name in (0..names).filter(|name| !missing.contains(name)) {
        rules.push((name, Vec::new()));
    }
    let heads = r.between(1, 4);
    for head in names..names + heads {
        let (left_out, and) = (r.pick(&missing), r.below(3 * names));
        let mut body: Vec<usize> = (0..names).filter(|&name| name != left_out && name != and).collect();
        r.shuffle(&mut body);
        rules.push((head, body));
    }
    Draft { names: names + heads, rules }
}

/// Repeated rules, facts beside rules, undefined names, another order.
fn sprinkle(draft: &mut Draft, r: &mut Random) {
    while r.one_in(4) {
        if let Some(rule) = some_rule(draft, r) {
            draft.rules.push(rule);
        }
    }
    while r.one_in(4) {
        draft.rules.push((r.below(draft.names), Vec::new()));
    }
    while r.one_in(5) && !draft.rules.is_empty() {
        let rule = r.below(draft.rules.len());
        draft.rules[rule].1.push(draft.names);
        draft.names += 1;
    }
    match r.below(3) {
        0 => draft.rules.reverse(),
        1 => r.shuffle(&mut draft.rules),
        _ => {}
    }
}

fn some_rule(draft: &Draft, r: &mut Random) -> Option<(usize, Vec<usize>)> {
    if draft.rules.is_empty() {
        None
    } else {
        Some(draft.rules[r.below(draft.rules.len())].clone())
    }
}

// ---------------------------------------------------------------- limits

/// A book just at a limit of names, rules, atoms or the length of a name, or one past it; sometimes at two of them.
fn at_a_limit(r: &mut Random) -> Vec<u8> {
    let mut draft = match r.below(3) {
        0 => scatter(r, 60, 60),
        1 => layers(r, 60, 60),
        _ => stairs(r, 60),
    };
    let which = r.below(8);
    if which == 0 || which == 5 || which == 6 {
        widen(&mut draft, NAMES + r.below(2), r);
    }
    if which == 1 || which == 5 {
        lengthen(&mut draft, RULES + r.below(2), r);
    }
    if which == 2 || which == 3 || which == 6 {
        split(&mut draft, ATOMS + r.below(2), r);
    }
    if r.one_in(2) {
        r.shuffle(&mut draft.rules);
    }
    if which == 7 {
        crowd(&mut draft, r);
    }
    let spelling = r.pick(&[Spelling::Letters, Spelling::Letters, Spelling::Letters, Spelling::Drawn, Spelling::Drawn, Spelling::Long]);
    let mut text = spell_as(&draft, spelling, r);
    if which == 4 {
        damage::respell(&mut text, NAME_BYTES + r.below(2), r);
    }
    if which == 7 && r.one_in(3) {
        text.pop();
        text.extend_from_slice(r.pick(&damage::FAULTS));
        text.push(b'\n');
    }
    text
}

/// One last rule that is the rule past the limit, or has the name past it, or both.
fn crowd(draft: &mut Draft, r: &mut Random) {
    widen(draft, NAMES - r.below(2), r);
    lengthen(draft, RULES - r.below(2), r);
    let mut names = vec![draft.names, r.below(60), draft.names];
    draft.names += 1;
    let head = names.remove(r.below(2));
    draft.rules.push((head, names));
}

fn used(draft: &Draft) -> Vec<bool> {
    let mut used = vec![false; draft.names];
    for (head, body) in &draft.rules {
        used[*head] = true;
        body.iter().for_each(|&name| used[name] = true);
    }
    used
}

/// New names in bodies or heads until so many are used.
fn widen(draft: &mut Draft, names: usize, r: &mut Random) {
    lengthen(draft, 1, r);
    let mut met = used(draft).iter().filter(|&&is| is).count();
    while met < names {
        let name = draft.names;
        draft.names += 1;
        met += 1;
        if r.one_in(2) {
            let body = some_heads(draft, r);
            draft.rules.push((name, body));
        } else {
            let rule = r.below(draft.rules.len());
            draft.rules[rule].1.push(name);
        }
    }
}

/// A body of names that stand in the book already.
fn some_heads(draft: &Draft, r: &mut Random) -> Vec<usize> {
    let rules = some_names(r, draft.rules.len());
    rules.iter().map(|&rule| draft.rules[rule].0).collect()
}

/// Rules for heads at hand until there are so many.
fn lengthen(draft: &mut Draft, rules: usize, r: &mut Random) {
    while draft.rules.len() < rules {
        let rule = some_rule(draft, r).unwrap_or((0, Vec::new()));
        draft.rules.push(rule);
    }
}

/// Further rules for a head that has several, until there are so many atoms: each adds one helper.
fn split(draft: &mut Draft, atoms: usize, r: &mut Random) {
    lengthen(draft, 1, r);
    let head = draft.rules[0].0;
    while count_atoms(draft) < atoms {
        // A head that had one rule adds two helpers, so the last steps keep to one head.
        let any = r.one_in(2) && count_atoms(draft) + 2 < atoms;
        let head = if any { draft.rules[r.below(draft.rules.len())].0 } else { head };
        let body = some_heads(draft, r);
        draft.rules.push((head, body));
    }
}

fn count_atoms(draft: &Draft) -> usize {
    let mut rules = vec![0; draft.names];
    draft.rules.iter().for_each(|(head, _)| rules[*head] += 1);
    let names = used(draft).iter().filter(|&&is| is).count();
    names + rules.iter().filter(|&&rules| rules > 1).sum::<usize>()
}

/// A text of just the longest length or one byte more; now and then so long that 16 bits do not hold it.
fn sized(r: &mut Random) -> Vec<u8> {
    let mut text = match r.below(4) {
        0 => large(r),
        1 => middling(r),
        _ => small(r),
    };
    let length = match r.below(20) {
        0 => 65_536 + r.between(0, 200),
        1 => TEXT_BYTES + r.between(2, 4_000),
        2..=10 => TEXT_BYTES + 1,
        _ => TEXT_BYTES,
    };
    damage::pad(&mut text, length, r);
    text
}

/// Hardly a text at all.
fn odd_length(r: &mut Random) -> Vec<u8> {
    let mut text = MARK.to_vec();
    match r.below(6) {
        0 => text.truncate(r.below(MARK.len() + 1)),
        1 => text.insert(r.below(MARK.len() + 1), b'\n'),
        2 => text = (0..r.below(20)).map(|_| r.byte()).collect(),
        3 => text[r.below(MARK.len())] ^= 1 << r.below(8),
        4 => text.extend_from_slice(MARK),
        _ => text.extend(vec![b'\n'; r.below(40)]),
    }
    text
}

/// Lines of few sorts of bytes, most of them bad: every order of blanks, colons, names and other bytes comes up.
fn soup(r: &mut Random) -> Vec<u8> {
    let mut text = MARK.to_vec();
    let good = b"aB: \t#\n:.a \n";
    let bad = b"ab:# \t\n\r\0\x7f\x80\xff/@[`{;!,";
    let one_in = r.between(2, 60);
    for _ in 0..r.between(0, 40) {
        let byte = if r.one_in(one_in) { r.pick(bad) } else { r.pick(good) };
        text.push(byte);
    }
    if r.one_in(2) {
        for _ in 0..r.between(1, 6) {
            text.extend_from_slice(soup_line(r).as_bytes());
        }
    }
    if !r.one_in(20) {
        text.push(b'\n');
    }
    text
}

const SOUP_LINES: [&str; 17] =
    ["a:", "a: b", "\tB :a\t", "#:a b", " #", "a b:", ":", ": a", "a::", "a", " ", "c :\tA  b a", "b:c", "a:b:c", "-._:9", "\r", "a:\r"];

/// Lines with two faults, or with one after bytes that are good.
const TWO_FAULTS: [&str; 8] = ["a b\r", "a\r:", "a! b", "a:b #", "a:b:\r", "a:\0:", ":!", "a #:"];

fn soup_line(r: &mut Random) -> String {
    let lines: &[&str] = if r.one_in(4) { &TWO_FAULTS } else { &SOUP_LINES };
    format!("\n{}", r.pick(lines))
}

// ---------------------------------------------------------------- spelling

struct Style {
    names: Vec<Vec<u8>>,
    capitals: usize,
    blanks: usize,
    between: usize,
    twice: usize,
}

fn spell(draft: &Draft, r: &mut Random) -> Vec<u8> {
    let by_number = [Spelling::Letters, Spelling::Letters, Spelling::Marks, Spelling::Any, Spelling::Long, Spelling::Runs];
    let spelling = if r.one_in(2) { Spelling::Drawn } else { r.pick(&by_number) };
    spell_as(draft, spelling, r)
}

fn spell_as(draft: &Draft, spelling: Spelling, r: &mut Random) -> Vec<u8> {
    let rare = 1 << 30;
    let style = Style {
        names: naming::names(draft.names, spelling, r),
        capitals: r.pick(&[rare, 10, 2, 1]),
        blanks: r.pick(&[rare, 10, 2]),
        between: r.pick(&[rare, 10, 3]),
        twice: r.pick(&[rare, rare, 6]),
    };
    let mut text = MARK.to_vec();
    for (head, body) in &draft.rules {
        nothing(&mut text, &style, r);
        rule(&mut text, *head, body, &style, r);
    }
    nothing(&mut text, &style, r);
    text
}

fn rule(text: &mut Vec<u8>, head: usize, body: &[usize], style: &Style, r: &mut Random) {
    blanks(text, style, r);
    name(text, head, style, r);
    blanks(text, style, r);
    text.push(b':');
    let mut parted = true;
    for &one in body {
        loop {
            if !parted {
                text.push(r.pick(b"    \t"));
            }
            blanks(text, style, r);
            name(text, one, style, r);
            parted = false;
            if !r.one_in(style.twice) {
                break;
            }
        }
    }
    blanks(text, style, r);
    text.push(b'\n');
}

/// Each time with capitals of its own.
fn name(text: &mut Vec<u8>, name: usize, style: &Style, r: &mut Random) {
    for &byte in &style.names[name] {
        let capital = r.one_in(style.capitals);
        text.push(if capital { byte.to_ascii_uppercase() } else { byte });
    }
}

fn blanks(text: &mut Vec<u8>, style: &Style, r: &mut Random) {
    while r.one_in(style.blanks) {
        text.push(r.pick(b" \t"));
    }
}

/// Remarks and blank lines between the rules.
fn nothing(text: &mut Vec<u8>, style: &Style, r: &mut Random) {
    while r.one_in(style.between) {
        if r.one_in(2) {
            blanks(text, style, r);
        } else {
            damage::remark(text, r.pick(&[0, 1, 5, 20]), r);
        }
        text.push(b'\n');
    }
}
