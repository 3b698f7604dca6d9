//! The proved program for the lab book: `labpage` reads a session file and prints its page, N
//! from the command line or 40. What it can't do it says in one line on standard error.

use std::ffi::OsStr;
use std::fs::File;
use std::io::Seek;
use std::os::unix::ffi::OsStrExt;
use std::path::{Path, PathBuf};
use std::process::{Command, Output, Stdio};

use irga_tests::figures::in_one_line;
use irga_tests::file::{self, Session};
use irga_tests::harness::Executable;
use irga_tests::hostile;
use irga_tests::lesson;
use irga_tests::page::{self, by_hand};
use irga_tests::sessions;

const BAD_ARGUMENT: &str =
    "labpage: the one argument is the number of sample lines under a header, 1 to 999\n";
const NO_SESSION: &str = "labpage: the input is not a session file\n";
const NOT_WRITTEN: &str = "labpage: the page could not be written";

const README: &str = include_str!("../../README.md");

fn program() -> Executable {
    Executable::beside("labpage")
}

/// What it prints, and what it says on standard error.
fn texts(output: &Output) -> [String; 2] {
    [&output.stdout, &output.stderr].map(|text| String::from_utf8_lossy(text).into_owned())
}

fn run<A: AsRef<OsStr>>(arguments: &[A], input: &[u8]) -> [String; 2] {
    texts(&program().run(arguments, input).expect("the program runs"))
}

/// A page and no message, or no page and a message; the number of sample lines on the page.
fn assert_page(arguments: &[&str], every: usize, input: &[u8]) -> Option<usize> {
    let samples = page::samples_of(input);
    let owed = match &samples {
        Some(samples) => [page::text(samples, every), String::new()],
        None => [String::new(), NO_SESSION.to_string()],
    };
    let [printed, said] = run(arguments, input);
    assert_eq!(said, owed[1], "{arguments:?}, {} bytes", input.len());
    let differs = owed[0].lines().zip(printed.lines()).find(|(ours, theirs)| ours != theirs);
    let lengths = [owed[0].len(), printed.len()];
    assert!(printed == owed[0], "{arguments:?}, pages of {lengths:?} bytes: {differs:?}");
    samples.map(|samples| samples.len())
}

#[test]
fn the_messages_that_the_readme_quotes() {
    for message in [BAD_ARGUMENT, NO_SESSION, &format!("{NOT_WRITTEN}: No space left on device")] {
        assert!(in_one_line(README).contains(&format!("`{}`", message.trim_end())), "{message}");
    }
}

fn lesson_file() -> PathBuf {
    Path::new(env!("CARGO_MANIFEST_DIR")).join("../examples/lesson.session")
}

/// Of 300 sample lines: eight headers without an argument, 300 under 1, one under 999.
#[test]
fn the_lesson() {
    let lesson = std::fs::read(lesson_file()).expect("the lesson is there");
    for (arguments, every, headers) in [
        (&[][..], 40, 8),
        (&["1"], 1, 300),
        (&["999"], 999, 1),
        (&["007"], 7, 43),
        (&["40"], 40, 8),
    ] {
        assert_eq!(assert_page(arguments, every, &lesson), Some(300));
        let [printed, _] = run(arguments, &lesson);
        assert_eq!(printed.len(), 73 * (300 + headers), "{arguments:?}");
    }
}

#[test]
fn pages_worked_out_by_hand() {
    for owed in by_hand::pages() {
        let argument = owed.every.to_string();
        let printed = run(&[&argument], &owed.session.to_bytes());
        assert_eq!(printed, [String::from_utf8_lossy(&owed.bytes()), "".into()], "{}", owed.name);
    }
}

/// A session of a load and so many samples.
fn samples(count: usize) -> Vec<u8> {
    let mut session = by_hand::longest();
    session.events.truncate(count + 1);
    session.to_bytes()
}

/// Without an argument the 41st line is the first one under a second header.
#[test]
fn forty_lines_without_an_argument() {
    for (count, lines) in [(39, 40), (40, 41), (41, 43), (80, 82), (81, 84)] {
        assert_eq!(assert_page(&[], 40, &samples(count)), Some(count));
        assert_eq!(run::<&str>(&[], &samples(count))[0].lines().count(), lines);
    }
}

/// The longest argument that the program reads.
const WORD: usize = 16;

/// Every N as it is written, and with zeros before it as far as a word goes: they make no number of
/// another base. Of 1,000 samples each N makes another page.
#[test]
fn every_number_of_lines_under_a_header() {
    let file = samples(1_000);
    for every in 1..=999 {
        assert_eq!(assert_page(&[&every.to_string()], every, &file), Some(1_000));
    }
    for (every, width) in [1, 8, 40, 999].into_iter().flat_map(|n| (2..=WORD).map(move |w| (n, w)))
    {
        assert_eq!(assert_page(&[&format!("{every:0width$}")], every, &file), Some(1_000));
    }
}

#[rustfmt::skip]
const BAD_ARGUMENTS: [&str; 38] = [
    "0", "00", "000", "1000", "01000", "10000", "0000000000000000", "00000000000000001",
    "00000000000000000001", "257000", "65537",
    "4294967297", "18446744073709551617", "-1", "+1", "-0", "", " ", " 1", "1 ", "1\n", "\t1",
    "abc", "1e2", "4O", "0x1", "1.0", "1,0", "1_0", "I", "\u{661}", "\u{ff11}", "\u{b2}", "40%",
    "-", "--", "-h", "--help",
];

/// The message comes whatever the input is.
#[test]
fn a_bad_argument_is_a_message() {
    let lesson = lesson::session().to_bytes();
    for argument in BAD_ARGUMENTS {
        for input in [&lesson, &lesson[1..], &[]] {
            assert_eq!(run(&[argument], input), ["", BAD_ARGUMENT], "'{argument}'");
        }
    }
    let long = "1".repeat(100_000);
    assert_eq!(run(&[&long], &lesson), ["", BAD_ARGUMENT]);
    for no_text in [&b"\xff"[..], b"1\xff", b"\xc0\xb1"] {
        assert_eq!(run(&[OsStr::from_bytes(no_text)], &lesson), ["", BAD_ARGUMENT]);
    }
}

#[test]
fn more_than_one_argument_is_a_message() {
    let lesson = lesson::session().to_bytes();
    for arguments in [&["40", "40"][..], &["1", ""], &["", "1"], &["0", "1000"], &["1", "2", "3"]] {
        assert_eq!(run(arguments, &lesson), ["", BAD_ARGUMENT], "{arguments:?}");
    }
}

/// The program shares our place in the file, which a reader moves.
#[test]
fn a_bad_argument_is_seen_before_the_input_is_read() {
    for (argument, read) in [("0", false), ("1000", false), ("40", true)] {
        let mut lesson = File::open(lesson_file()).expect("the lesson is there");
        let input = lesson.try_clone().expect("the same place in the file");
        let output = Command::new(program().path).arg(argument).stdin(input).output();
        let [_, said] = texts(&output.expect("the program starts"));
        assert_eq!(said, if read { "" } else { BAD_ARGUMENT });
        assert_eq!(lesson.stream_position().expect("a place") > 0, read, "{argument}");
    }
}

#[test]
fn what_is_no_session_is_a_message() {
    let lesson = lesson::session().to_bytes();
    let longest = lesson::longest().to_bytes();
    let too_long = [file::INPUT_LIMIT, file::INPUT_LIMIT + 1, 1_000_000].map(|length| {
        let mut input = longest.clone();
        input.resize(length, 0);
        input
    });
    let damaged = [&[][..], &lesson[1..], &lesson[..15], &lesson[..lesson.len() - 1]];
    for input in damaged.into_iter().chain(too_long.iter().map(Vec::as_slice)) {
        assert_eq!(assert_page(&[], 40, input), None);
        assert_eq!(assert_page(&["1"], 1, input), None);
    }
    for file in hostile::wrapping_headers() {
        assert_eq!(assert_page(&[], 40, &file), None);
    }
}

/// No event, no sample, and samples that were all refused: a page of no bytes is no fault.
#[test]
fn pages_without_a_line() {
    for owed in by_hand::empty() {
        assert_eq!(assert_page(&[], 40, &owed.session.to_bytes()), Some(0));
    }
    assert_eq!(assert_page(&["1"], 1, &Session::default().to_bytes()), Some(0));
}

#[test]
fn the_longest_page() {
    let file = by_hand::longest().to_bytes();
    let [printed, said] = run(&["1"], &file);
    assert_eq!((printed.len(), said.as_str()), (394_054, ""));
    assert_eq!(assert_page(&["1"], 1, &file), Some(2_699));
    assert_eq!(assert_page(&["999"], 999, &file), Some(2_699));
    assert!(assert_page(&[], 40, &lesson::longest().to_bytes()).is_some());
}

/// Sessions of every profile, and such whose figures are hard to round.
#[test]
fn invented_sessions() {
    let (mut lines, mut empty, mut refused) = (0, 0, 0);
    for number in 0..100 {
        let made = sessions::make(0x6278, number).file;
        let aimed = sessions::pages::aimed(0x6278, number).to_bytes();
        let every = number as usize + 1;
        for file in [&made, &aimed] {
            let with_argument = assert_page(&[&every.to_string()], every, file);
            assert_eq!(assert_page(&[], 40, file), with_argument);
            match with_argument {
                None => refused += 1,
                Some(0) => empty += 1,
                Some(samples) => lines += samples,
            }
        }
    }
    println!("{lines} sample lines, {empty} empty pages, {refused} refused files");
    assert!(lines > 2_000 && empty > 2 && refused > 4, "{lines}, {empty}, {refused}");
}

/// Each bit of an event or a sheet that must be zero: nothing but lines that are not there.
#[test]
fn hostile_events() {
    for spoilt in hostile::bits_that_must_be_zero() {
        assert!(assert_page(&["3"], 3, &spoilt.file).is_some());
    }
}

/// A page that a device takes at once, and one that has to be written in parts.
#[test]
fn a_page_that_cannot_be_written() {
    for arguments in [&["999"][..], &["1"], &[]] {
        let full = File::options().write(true).open("/dev/full").expect("a full device");
        let lesson = File::open(lesson_file()).expect("the lesson is there");
        let output = Command::new(program().path)
            .args(arguments)
            .stdin(lesson)
            .stdout(Stdio::from(full))
            .output()
            .expect("the program starts");
        let [_, said] = texts(&output);
        assert!(said.starts_with(NOT_WRITTEN) && said.ends_with('\n'), "{said}");
        assert_eq!(said.lines().count(), 1, "{said}");
    }
}
