//! Compares the engine under test, through its call for C, with a second engine on known and on random books.
//!
//!     compare [--seed N] [--books N] [--folder PATH] [--only BOOK]
//!
//! The seed may also come from the environment as DPB_SEED. `--only` draws one random book again, by its number.

mod awkward;
mod books;
mod damage;
mod definitions;
mod engine;
mod farm;
mod figures;
mod harness;
mod known;
mod literal;
mod naming;
mod random;
mod reduce;
mod sweep;
mod tally;

use std::path::PathBuf;
use std::process::exit;
use std::sync::atomic::Ordering;
use std::time::{Duration, Instant};

use harness::{Difference, Harness};

struct Options {
    seed: u64,
    books: u64,
    only: Option<u64>,
    folder: PathBuf,
}

fn number(text: &str) -> u64 {
    text.parse().unwrap_or_else(|_| {
        eprintln!("compare: not a number: {text}");
        exit(2)
    })
}

fn options() -> Options {
    let seed = std::env::var("DPB_SEED").map_or(1, |seed| number(&seed));
    let mut options = Options { seed, books: 200_000, only: None, folder: PathBuf::from("target/differences") };
    let mut words = std::env::args().skip(1);
    while let Some(word) = words.next() {
        let value = words.next().unwrap_or_default();
        match word.as_str() {
            "--seed" => options.seed = number(&value),
            "--books" => options.books = number(&value),
            "--only" => options.only = Some(number(&value)),
            "--folder" => options.folder = PathBuf::from(value),
            _ => {
                eprintln!("compare: unknown word {word}; known: --seed N --books N --folder PATH --only BOOK");
                exit(2)
            }
        }
    }
    options
}

/// Ends the program when no call has come back for two minutes; the book at hand is on disk.
fn watch(folder: PathBuf) {
    std::thread::spawn(move || {
        let (mut ended, mut since) = (0, Instant::now());
        loop {
            std::thread::sleep(Duration::from_secs(1));
            let now = harness::ENDED.load(Ordering::Relaxed);
            if now != ended {
                (ended, since) = (now, Instant::now());
            } else if since.elapsed() > Duration::from_secs(120) {
                println!("no call has ended for two minutes; the book at hand: {}", folder.join("at-hand").display());
                exit(1);
            }
        }
    });
}

// ---------------------------------------------------------------- what is reported

/// Saves the book and its reduced form, and prints what each engine said.
fn report(harness: &mut Harness, seed: u64, name: &str, difference: &Difference) {
    let lent = difference.lent;
    println!("{name}: DIFFERENCE: {}", difference.what);
    println!("  folds {}, listing area of {} bytes, seed {seed}", lent.folds, lent.area);
    print_said(difference);
    let stem = format!("{}-seed-{seed}-folds-{}", name.replace(' ', "-"), lent.folds);
    save(harness, &format!("{stem}.book"), &difference.text);
    let mut faulty = |text: &[u8]| harness.check_text(text, lent).is_err() || definitions::fault_of_second(text).is_some();
    let reduced = reduce::reduce(&difference.text, &mut faulty);
    save(harness, &format!("{stem}.reduced.book"), &reduced);
    if let Err(difference) = harness.check_text(&reduced, lent) {
        print_said(&difference);
    }
}

fn print_said(difference: &Difference) {
    println!("  under test: {}", difference.tested);
    println!("  second:     {}", difference.second);
}

fn save(harness: &Harness, name: &str, text: &[u8]) {
    let path = harness.folder.join(name);
    match std::fs::write(&path, text) {
        Ok(()) => println!("  saved: {} ({} bytes)", path.display(), text.len()),
        Err(why) => println!("  not saved: {}: {why}", path.display()),
    }
}

type Test = fn(&mut Harness, u64) -> Result<String, Difference>;

const TESTS: [(&str, Test); 6] = [
    ("definitions", definitions::run),
    ("known books", known::run),
    ("awkward bytes", awkward::run),
    ("the hung job", farm::hung_job),
    ("the pipe", farm::pipe),
    ("the weekly schedule", farm::weekly_schedule),
];

fn fixed_tests(harness: &mut Harness, seed: u64) -> bool {
    let mut passed = true;
    for (name, test) in TESTS {
        match test(harness, seed) {
            Ok(line) => println!("{name}: {line}"),
            Err(difference) => {
                report(harness, seed, name, &difference);
                passed = false;
            }
        }
    }
    passed
}

/// The random books, then how often each number, each side of a limit and names that begin each other came up; none may be missing.
fn random_books(harness: &mut Harness, options: &Options) -> bool {
    let places = options.only.map_or(0..options.books, |only| only..only + 1);
    let result = sweep::run(harness, options.seed, places);
    match &result {
        Ok(line) => println!("random books: {line}"),
        Err((place, difference)) => {
            report(harness, options.seed, &format!("random book {place}"), difference);
            println!("  again: tests/compare --seed {} --only {place}", options.seed);
        }
    }
    let all_met = harness.tally.print();
    if result.is_ok() && options.only.is_none() && !all_met {
        println!("one of these counts is zero: too few books, or a poor draw");
    }
    result.is_ok() && (all_met || options.only.is_some())
}

fn main() {
    let options = options();
    let mut harness = Harness::new(&options.folder).unwrap_or_else(|why| {
        eprintln!("compare: {}: {why}", options.folder.display());
        exit(2)
    });
    watch(options.folder.clone());
    println!("seed {} (again: tests/compare --seed {} --books {})", options.seed, options.seed, options.books);
    let fixed = options.only.is_some() || fixed_tests(&mut harness, options.seed);
    let random = random_books(&mut harness, &options);
    harness.finish().unwrap_or_else(|why| println!("at-hand stays: {why}"));
    println!("{}", if fixed && random { "passed" } else { "FAILED" });
    exit(i32::from(!(fixed && random)))
}
