//! How the program under test ends: its exit status and its line where it has no session
//! to answer, and where nobody takes its lines. README.md says the same.

use std::fs::File;
use std::io::Write;
use std::os::unix::process::ExitStatusExt;
use std::path::Path;
use std::process::{Command, Stdio};

use irga_tests::figures::in_one_line;
use irga_tests::file;
use irga_tests::harness::{Executable, Program};
use irga_tests::lesson;

/// The line of a refused file, with the exit status 0.
const REFUSED: &[u8] = b"0 0 12 0 0 0\n";

/// The number of SIGPIPE.
const BROKEN_PIPE: i32 = 13;

fn program() -> Command {
    Command::new(Executable::under_test().path)
}

#[test]
fn what_is_no_session_is_refused_with_status_0() {
    let mut program = Executable::under_test();
    let lesson = lesson::session().to_bytes();
    for input in [&[][..], &lesson[1..], &vec![0; file::INPUT_LIMIT + 1]] {
        assert_eq!(program.print(input).as_deref(), Ok(REFUSED), "{} bytes", input.len());
    }
}

#[test]
fn a_session_without_events_prints_nothing() {
    let empty = [0u32, 16, 0, 16].map(u32::to_le_bytes).concat();
    assert_eq!(Executable::under_test().print(&empty).as_deref(), Ok(&[][..]));
}

/// A folder can be opened and not read.
#[test]
fn an_input_that_cannot_be_read_is_refused_with_status_0() {
    let folder = File::open(Path::new(env!("CARGO_MANIFEST_DIR"))).expect("this folder");
    let output = program().stdin(folder).output().expect("the program starts");
    assert_eq!((output.status.code(), &output.stdout[..]), (Some(0), REFUSED));
}

/// Gives the lesson to a program that has its output already, and waits for its end.
fn status_after_the_lesson(output: Stdio) -> std::process::ExitStatus {
    let mut child = program().stdin(Stdio::piped()).stdout(output).spawn().expect("a start");
    // A pipe's reading end is closed here, before the program has anything to write.
    drop(child.stdout.take());
    let mut input = child.stdin.take().expect("a standard input");
    input.write_all(&lesson::session().to_bytes()).expect("the program reads its input");
    drop(input);
    child.wait().expect("the program ends")
}

#[test]
fn a_full_device_leaves_the_status_0() {
    let full = File::options().write(true).open("/dev/full").expect("a full device");
    assert_eq!(status_after_the_lesson(full.into()).code(), Some(0));
}

#[test]
fn a_pipe_that_nobody_reads_ends_the_program_as_the_signal_does() {
    let status = status_after_the_lesson(Stdio::piped());
    assert_eq!((status.code(), status.signal()), (Some(128 + BROKEN_PIPE), None));
}

/// A shell adds 128 to the number of the signal. The program's runtime passes the signal over, and it ends with that number itself.
#[test]
fn readme_says_how_it_ends() {
    let page = in_one_line(include_str!("../../README.md"));
    let by_signal = format!("as SIGPIPE does ({} in a shell)", 128 + BROKEN_PIPE);
    for sentence in [
        "A file that it refuses, one of 0 bytes, or an input that cannot be read gives the one line",
        "a session without events prints nothing.",
        "Its exit status is 0 in these cases too, and when its output cannot be written,",
        &by_signal,
    ] {
        assert!(page.contains(sentence), "README.md does not say: {sentence}");
    }
}
