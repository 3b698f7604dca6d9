//! How fast the proved engine runs beside this implementation: whole session files by
//! `irga_run` and by `file::run`, in one process, into one and the same output. Prints the
//! first tables of docs/SPEED.md. `speed instructions` counts the instructions of a sample;
//! `speed N` has the proved engine run the table's case N once and prints nothing, to be
//! counted.

use std::hint::black_box;
use std::process::ExitCode;

use irga_tests::file::{self, EVENTS_LIMIT, RECORD_BYTES};
use irga_tests::instructions;
use irga_tests::library;
use irga_tests::pace::{self, Case};

/// Both must write the same bytes, or a rate would compare nothing.
fn assert_same_bytes(case: &Case, output: &mut [u8]) {
    output.fill(0);
    let ours = file::run(&case.file, output);
    let bytes = output.to_vec();
    output.fill(0);
    assert_eq!(library::run(&case.file, output), ours, "{}", case.name);
    assert!(bytes == output && ours.written == output.len(), "{}: other bytes", case.name);
}

fn row(case: &Case, output: &mut [u8]) -> String {
    let proved = |output: &mut [u8]| _ = black_box(library::run(black_box(&case.file), output));
    let independent = |output: &mut [u8]| _ = black_box(file::run(black_box(&case.file), output));
    pace::row(case.name, case.unit, case.count, [&proved, &independent], output)
}

/// The instructions of a sample in each of the first three cases, this program counted by valgrind.
fn instructions(cases: &[Case]) {
    let program = std::env::current_exe().expect("this program's own file");
    for (i, case) in cases.iter().enumerate().take(3) {
        let counts = instructions::counted(&program, &(i + 1).to_string());
        println!("{}:\n\n{}\n", case.name, instructions::table(&counts, case.count));
    }
}

fn main() -> ExitCode {
    let mut output = vec![0; RECORD_BYTES * EVENTS_LIMIT];
    let cases = pace::cases();
    let words: Vec<String> = std::env::args().skip(1).collect();
    let word = words.join(" ");
    let number = word.parse::<usize>().unwrap_or(0);
    match (word.as_str(), cases.get(number.wrapping_sub(1))) {
        ("", _) => {
            println!("{}", pace::head("proved", "independent"));
            for case in &cases {
                assert_same_bytes(case, &mut output);
                println!("{}", row(case, &mut output));
            }
        }
        ("instructions", _) => instructions(&cases),
        (_, Some(case)) => _ = library::run(&case.file, &mut output),
        (word, None) => {
            eprintln!(
                "speed: {word} is neither `instructions` nor a case from 1 to {}",
                cases.len()
            );
            return ExitCode::FAILURE;
        }
    }
    ExitCode::SUCCESS
}
