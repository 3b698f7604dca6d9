//! The sessions in examples/: the lesson, whose file is what the lesson makes and its text what this
//! implementation prints of it, and the samples that are over range.

use std::fs;
use std::path::Path;
use std::process::Command;

use irga_tests::{file, grounds, lesson};

const FILE: &[u8] = include_bytes!("../../examples/lesson.session");
const OVER: &[u8] = include_bytes!("../../examples/over_range.session");
const TEXT: &str = include_str!("../../examples/lesson.txt");

#[test]
fn the_file_is_the_lesson() {
    assert_eq!(lesson::session().to_bytes(), FILE);
}

#[test]
fn the_text_is_what_it_prints() {
    assert_eq!(file::program(FILE), TEXT);
}

/// A lesson that goes well: nothing is refused, all 300 readings are in the area, and the leaf
/// takes up, as docs/DRIFT.md says.
#[test]
fn every_event_is_accepted() {
    let answers = lesson::session().answers();
    assert!(answers.iter().all(|answer| answer.refusal == 0));
    let area = answers.last().expect("an area");
    assert!(area.m == 300 && area.x < 0);
}

/// Each ground once, and a sample that is accepted.
#[test]
fn samples_over_range_on_each_ground() {
    let session = lesson::over_range();
    assert_eq!(session.to_bytes(), OVER);
    let named: Vec<u8> = grounds::of_session(&session).iter().map(|g| g.number()).collect();
    assert_eq!(named, [0, 0, 1, 0, 2, 0, 3, 4, 0]);
    let refusals = session.answers().into_iter().map(|answer| answer.refusal);
    assert_eq!(refusals.collect::<Vec<u8>>(), [0, 0, 8, 0, 8, 0, 8, 8, 0]);
}

/// The commands in README.md name the file, so that it is not emptied before it is made.
#[test]
fn the_programs_write_the_file_that_is_named() {
    for (program, name, bytes) in [
        (env!("CARGO_BIN_EXE_lesson"), "lesson", FILE),
        (env!("CARGO_BIN_EXE_over_range"), "over_range", OVER),
    ] {
        let path = Path::new(env!("CARGO_TARGET_TMPDIR")).join(format!("{name}.session"));
        let mut program = Command::new(program);
        assert!(!program.output().expect("the program starts").status.success());
        let output = program.arg(&path).output().expect("the program starts");
        assert!(output.status.success() && output.stdout.is_empty());
        assert_eq!(fs::read(&path).expect("the file is there"), bytes);
        let command = format!("--bin {name} examples/{name}.session`");
        assert!(include_str!("../../README.md").contains(&command));
    }
}
