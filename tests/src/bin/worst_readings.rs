//! Searches for readings with large errors and prints one block for each kind. The
//! first argument is the number of seconds for each kind (60 if there is none), the
//! second a seed, the third some words of a kind's title, if not all kinds are wanted.

use std::time::Duration;

use irga_tests::worst::{climb, KINDS};

fn main() {
    let mut arguments = std::env::args().skip(1);
    let mut number = |unless_said: u64| match arguments.next().map(|word| word.parse()) {
        None => unless_said,
        Some(Ok(number)) => number,
        Some(Err(_)) => {
            eprintln!("usage: worst_readings [SECONDS [SEED [WORDS]]]");
            std::process::exit(2)
        }
    };
    let (seconds, seed) = (number(60), number(1));
    let words = arguments.next().unwrap_or_default();
    println!("Readings with large rounding errors, found by a hostile search. Each block is a");
    println!("session from a fresh engine: load the sheet, zero, span and reference where they");
    println!("are given, then the sample. Errors are in pmol/mol, cut after twelve decimals.");
    for kind in KINDS.into_iter().filter(|kind| kind.title().contains(&words)) {
        let found = climb(kind, seed, Duration::from_secs(seconds));
        match found.map(|reading| reading.text()) {
            Some(Ok(text)) => print!("\n{text}"),
            Some(Err(why)) => eprintln!("{}: {why}", kind.title()),
            None => eprintln!("{}: nothing found", kind.title()),
        }
    }
}
