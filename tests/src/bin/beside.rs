//! The proved engine of this tree beside another one, in one process. `beside FOLDER`: beside
//! the archive in a folder, as an earlier tree's `target/staticlib`. `beside`: beside the same
//! engine on a `near` that has a division and a remainder, and first `near` itself beside that.
//! Prints the tables of docs/SPEED.md.

use std::hint::black_box;
use std::path::{Path, PathBuf};
use std::process::ExitCode;

use irga_tests::archive::Loaded;
use irga_tests::file::{Outcome, EVENTS_LIMIT, RECORD_BYTES};
use irga_tests::pace::{self, Case};
use irga_tests::random::Random;
use irga_tests::trial;

/// Numbers as a reading rounds them, with divisors as D, 100 P and T0 are.
fn numbers() -> Vec<(i64, u64)> {
    let mut random = Random::new(1);
    let mut pair = || {
        let a = random.between(10_000_000_000_000, 4_000_000_000_000_000);
        let b = [random.between(6_000_000, 12_000_000), random.between(27_315, 32_315)];
        (a, b[random.below(2) as usize] as u64)
    };
    (0..4_096).map(|_| pair()).collect()
}

/// All of them rounded, each call waiting for the one before, as in a reading.
fn rounded(numbers: &[(i64, u64)], near: impl Fn(i64, u64) -> i64) -> i64 {
    numbers.iter().fold(0, |last, (a, b)| near(a + (last & 1), *b))
}

fn near_rows(folders: [&Path; 2], output: &mut [u8]) {
    let [one, other] = folders.map(|folder| Loaded::new(folder, "near_alone").near());
    let numbers = numbers();
    for (a, b) in &numbers {
        assert_eq!(one.0(*a, *b), other.0(*a, *b), "near({a} / {b})");
        assert_eq!(one.1(*a), other.1(*a), "near({a} / 10^7)");
    }
    let by = |near: &dyn Fn(i64, u64) -> i64| _ = black_box(rounded(black_box(&numbers), near));
    let sides: [pace::Run; 2] = [&|_| by(&one.0), &|_| by(&other.0)];
    let name = "near, a divisor known only then";
    println!("{}", pace::row(name, "calls", numbers.len(), sides, output));
    let sides: [pace::Run; 2] = [&|_| by(&|a, _| one.1(a)), &|_| by(&|a, _| other.1(a))];
    println!("{}", pace::row("near, by 10^7", "calls", numbers.len(), sides, output));
}

/// A run that must write the whole output, and what it wrote.
fn bytes(run: &impl Fn(&[u8], &mut [u8]) -> Outcome, case: &Case, output: &mut [u8]) -> Vec<u8> {
    output.fill(0);
    assert_eq!(run(&case.file, output).written, output.len(), "{}", case.name);
    output.to_vec()
}

fn sample_rows(folders: [&Path; 2], output: &mut [u8]) {
    let [one, other] = folders.map(|folder| Loaded::new(folder, "host").run());
    for case in &pace::cases() {
        let same = bytes(&one, case, output) == bytes(&other, case, output);
        assert!(same, "{}: other bytes", case.name);
        let one = |output: &mut [u8]| _ = black_box(one(black_box(&case.file), output));
        let other = |output: &mut [u8]| _ = black_box(other(black_box(&case.file), output));
        println!("{}", pace::row(case.name, case.unit, case.count, [&one, &other], output));
    }
}

/// The archive of this tree.
fn here() -> PathBuf {
    eprintln!("proving this tree's library, up to three minutes if it was not proved before");
    trial::archive(&trial::root(), "host")
}

fn beside_archive(folder: &Path, output: &mut [u8]) {
    let here = here();
    println!("{}", pace::head("this", "other"));
    sample_rows([&here, folder], output);
}

fn beside_two_signs(output: &mut [u8]) {
    let here = here();
    eprintln!("proving the trial, some three minutes");
    let (one, two) = (trial::tree("one_sign"), trial::two_signs("two_signs"));
    let near = [&one, &two].map(|tree| trial::archive(tree, "near_alone"));
    let other = trial::archive(&two, "host");
    println!("{}", pace::head("one sign", "two signs"));
    near_rows([&near[0], &near[1]], output);
    sample_rows([&here, &other], output);
}

fn main() -> ExitCode {
    let mut output = vec![0; RECORD_BYTES * EVENTS_LIMIT];
    let words: Vec<String> = std::env::args().skip(1).collect();
    match words.as_slice() {
        [] => beside_two_signs(&mut output),
        [folder] if Path::new(folder).join("libhost.a").exists() => {
            beside_archive(Path::new(folder), &mut output);
        }
        _ => {
            eprintln!(
                "beside: give no word, or a folder with a libhost.a, which `tools/build host`"
            );
            eprintln!("writes to target/staticlib of its tree; not {}", words.join(" "));
            return ExitCode::FAILURE;
        }
    }
    ExitCode::SUCCESS
}
