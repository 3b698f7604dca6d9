//! The proved writer of typed sheets and events, run: the program `replan` reads a session file,
//! plans its sheets and events again and prints the file that the writer makes of them. What a
//! plan makes comes out byte for byte, and of anything else nothing does.

use std::fs::{self, File};
use std::path::Path;
use std::process::Command;

use irga_tests::figures::in_one_line;
use irga_tests::file::{self, Session};
use irga_tests::harness::{Executable, Program};
use irga_tests::hostile;
use irga_tests::lesson;
use irga_tests::plan::Plan;
use irga_tests::sessions::{self, plans};

/// What comes out of the program; a file that is nobody's plan owes nothing.
fn assert_planned_again(file: &[u8]) -> bool {
    let plan = Session::open(file).and_then(|session| Plan::of(&session));
    let owed = if plan.is_some() { file } else { &[] };
    let printed = Executable::beside("replan").print(file);
    assert!(printed.as_deref() == Ok(owed), "a file of {} bytes: {printed:?}", file.len());
    plan.is_some()
}

/// Whether a file has a short start or bytes that stand for one.
fn has_a_short_start(file: &[u8]) -> bool {
    Session::open(file).is_some_and(|session| session.events.iter().any(|event| event.kind == 10))
}

/// Sessions that may be damaged, and plans with numbers inside and far outside their limits; many of
/// them with a short start.
#[test]
fn invented_files() {
    let (mut plain, mut other, mut short) = (0, 0, [0; 2]);
    for number in 0..1_000 {
        let (plan, _) = plans::planned(0x6274, number);
        for file in [sessions::make(0x6274, number).file, plan.session().to_bytes()] {
            let again = assert_planned_again(&file);
            *if again { &mut plain } else { &mut other } += 1;
            short[usize::from(again)] += u32::from(has_a_short_start(&file));
        }
    }
    let [short_left, short] = short;
    println!("{plain} planned again, {other} left; with kind 10 {short} and {short_left}");
    assert!(plain > 1_000 && other > 200, "{plain} planned again, {other} left");
    assert!(short > 500 && short_left > 50, "{short} planned again, {short_left} left");
}

/// The example of document 01, which the program `irga` reads too.
#[test]
fn the_example_of_the_paper() {
    let irga = include_bytes!("../../crates/irga/stdin");
    assert_eq!(include_bytes!("../../crates/replan/stdin"), irga);
    assert_eq!(include_bytes!("../../crates/replan/stdout"), irga);
    assert!(assert_planned_again(irga));
}

/// As many sheets and events as a file may have, one event more, one sheet more, none at all.
#[test]
fn the_longest_plan_and_the_ends() {
    let mut lesson = lesson::longest();
    assert!(assert_planned_again(&lesson.to_bytes()));
    lesson.events.push(lesson.events[0]);
    assert!(!assert_planned_again(&lesson.to_bytes()));
    lesson.events.truncate(2_700);
    lesson.sheets.push(lesson.sheets[0]);
    assert!(!assert_planned_again(&lesson.to_bytes()));
    assert!(assert_planned_again(&Session::default().to_bytes()));
}

/// What README says of the program's stack, its output's buffer and the writer's arrays together; what it reads is on the heap.
#[test]
fn the_longest_plan_in_little_stack() {
    let kibibytes = "256";
    let says = format!("all in {kibibytes} KiB of stack and the 65,537 bytes that it reads into");
    assert!(in_one_line(include_str!("../../README.md")).contains(&says), "{says}");
    let lesson = lesson::longest();
    let path = Path::new(env!("CARGO_TARGET_TMPDIR")).join("longest.session");
    fs::write(&path, lesson.to_bytes()).expect("a written file");
    let program = Executable::beside("replan").path;
    let mut shell = Command::new("sh");
    shell.args(["-c", "ulimit -s \"$1\" && exec \"$0\""]).arg(&program).arg(kibibytes);
    let output = shell.stdin(File::open(&path).expect("the file")).output().expect("a start");
    assert!(output.stdout == lesson.to_bytes(), "{}", output.status);
}

/// Each bit that must be zero, headers whose sums wrap, and what is no file.
#[test]
fn files_that_no_plan_makes() {
    for spoilt in hostile::bits_that_must_be_zero() {
        assert!(!assert_planned_again(&spoilt.file));
    }
    for file in hostile::wrapping_headers() {
        assert!(!assert_planned_again(&file));
    }
    let lesson = lesson::session().to_bytes();
    for file in [&[][..], &lesson[1..], &vec![0; file::INPUT_LIMIT + 1]] {
        assert!(!assert_planned_again(file));
    }
}
