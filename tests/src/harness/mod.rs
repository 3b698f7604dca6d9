//! An engine under test beside this implementation, over many invented sessions.
//!
//! Every byte of the lent output is compared, and every printed line. Since the
//! answers are then the same, the exact ledger is walked over ours: demand 3's
//! distances are checked on each session too. `plans` does the same for a writer of session
//! files, `pages` for a writer of pages, `recorders` for a chart recorder's words, and `grounds` for
//! what samples are over range by.

mod grounds;
mod pages;
mod plans;
pub mod recorders;
mod tally;

pub use grounds::check_grounds;
pub use pages::check_page;
pub use tally::Tally;

use std::ffi::{OsStr, OsString};
use std::fs;
use std::io::Write;
use std::path::{Path, PathBuf};
use std::process::{Command, Output, Stdio};
use std::thread;

use crate::engine::Answer;
use crate::file::{self, Outcome, Session, LINE_ROOM, RECORD_BYTES};
use crate::ledger::{self, Distances};
use crate::random::Random;
use crate::sessions;

/// Every accepted area among a session's answers: its place, and the wet values that it counts,
/// told from the answers alone. No session file is long enough for the 6,000th.
pub fn areas(answers: &[Answer]) -> Vec<(usize, Vec<i64>)> {
    let (mut runs, mut counted, mut found) = (false, Vec::new(), Vec::new());
    for (place, Answer { kind, refusal, x, .. }) in answers.iter().enumerate() {
        match (kind, refusal) {
            (7 | 10, 0) => (runs, counted) = (true, Vec::new()),
            (6, 0) if runs => counted.push(*x),
            (1..=5 | 8, 0) | (6, _) => runs = false,
            (9, 0) => found.push((place, counted.clone())),
            _ => {}
        }
    }
    found
}

/// A run over a lent file into a lent output.
pub trait Engine {
    fn run(&mut self, file: &[u8], output: &mut [u8]) -> Outcome;
}

impl<F: FnMut(&[u8], &mut [u8]) -> Outcome> Engine for F {
    fn run(&mut self, file: &[u8], output: &mut [u8]) -> Outcome {
        self(file, output)
    }
}

/// A program from standard input to standard output.
pub trait Program {
    fn print(&mut self, input: &[u8]) -> Result<Vec<u8>, String>;
}

/// A program that is an executable file.
pub struct Executable {
    pub path: PathBuf,
}

impl Executable {
    /// The program under test, which the environment variable IRGA_PROGRAM names. Without
    /// one there is nothing to compare with, and a test that asks for it fails.
    pub fn under_test() -> Executable {
        let named = std::env::var_os("IRGA_PROGRAM");
        let program = Executable::named(named).unwrap_or_else(|why| panic!("{why}"));
        let path = program.path.display();
        assert!(program.path.exists(), "IRGA_PROGRAM names {path}, and nothing is there");
        program
    }

    /// Another program of the repository: it stands beside the one under test.
    pub fn beside(name: &str) -> Executable {
        Executable { path: Executable::under_test().path.with_file_name(name) }
    }

    /// Runs it to its end with arguments and an input: what it printed, and what it said on
    /// standard error.
    pub fn run<A: AsRef<OsStr>>(&self, arguments: &[A], input: &[u8]) -> Result<Output, String> {
        let fault = |what: &str, why: std::io::Error| format!("cannot {what}: {why}");
        let mut child = Command::new(&self.path)
            .args(arguments)
            .stdin(Stdio::piped())
            .stdout(Stdio::piped())
            .stderr(Stdio::piped())
            .spawn()
            .map_err(|why| fault("start the program", why))?;
        let mut standard_input = child.stdin.take().ok_or("no standard input")?;
        let input = input.to_vec();
        // A program may print before it has read all, or stop reading at its limit:
        // the writer has a thread of its own, and a closed pipe is no fault.
        let writer = thread::spawn(move || standard_input.write_all(&input).is_ok());
        let output = child.wait_with_output().map_err(|why| fault("wait", why))?;
        writer.join().map_err(|_| "the writer failed".to_string())?;
        Ok(output)
    }

    fn named(path: Option<OsString>) -> Result<Executable, &'static str> {
        let path = path.filter(|path| !path.is_empty()).ok_or(
            "no program to compare with: set IRGA_PROGRAM to the full path of target/bin/irga, \
             which `tools/build irga` makes",
        )?;
        Ok(Executable { path: PathBuf::from(path) })
    }
}

impl Program for Executable {
    fn print(&mut self, input: &[u8]) -> Result<Vec<u8>, String> {
        let Output { status, stdout, stderr } = self.run::<&OsStr>(&[], input)?;
        if !status.success() {
            let said = String::from_utf8_lossy(&stderr);
            return Err(format!("the program ended with {status}: {said}"));
        }
        Ok(stdout)
    }
}

/// What a campaign has gone through.
#[derive(Clone, Debug, Default)]
pub struct Count {
    pub sessions: u64,
    pub events: u64,
    /// How many events of a kind (first index) ended in a refusal number (second).
    pub answers: Vec<[u64; 14]>,
    pub samples_against: u64,
    pub statuses: [u64; 14],
    pub met: Distances,
}

/// How many sessions a campaign has unless the environment says otherwise.
pub const SESSIONS: u64 = 20_000;

/// Many sessions under one seed; a failing one is written into the folder.
pub struct Campaign {
    pub seed: u64,
    pub sessions: u64,
    pub folder: PathBuf,
}

impl Campaign {
    /// As many sessions as the environment variable IRGA_SESSIONS says.
    pub fn from_environment(seed: u64, folder: &Path) -> Campaign {
        let sessions = match std::env::var("IRGA_SESSIONS") {
            Ok(text) => text.parse().ok().filter(|count| *count > 0),
            Err(_) => Some(SESSIONS),
        };
        let sessions = sessions.expect("IRGA_SESSIONS is a whole number above 0");
        Campaign { seed, sessions, folder: folder.to_path_buf() }
    }

    /// Compares an engine with this implementation, byte by byte.
    pub fn against_engine(&self, engine: &mut dyn Engine) -> Result<Count, String> {
        self.each(|file, random| compare_lent(&ANSWERS, engine, file, random))
    }

    /// Compares an engine that writes lines in the place of answers, byte by byte.
    pub fn against_lines(&self, engine: &mut dyn Engine) -> Result<Count, String> {
        self.each(|file, random| compare_lent(&LINES, engine, file, random))
    }

    /// Compares a program with this implementation, line by line.
    pub fn against_program(&self, program: &mut dyn Program) -> Result<Count, String> {
        self.each(|file, _| {
            compare_lines(program, file)?;
            Ok(if Session::open(file).is_some() { 0 } else { 12 })
        })
    }

    /// Goes through the sessions with a comparison that gives back the status.
    fn each(
        &self,
        mut compare: impl FnMut(&[u8], &mut Random) -> Result<u8, String>,
    ) -> Result<Count, String> {
        let mut count = Count { answers: vec![[0; 14]; 256], ..Count::default() };
        for number in 0..self.sessions {
            let made = sessions::make(self.seed, number);
            let mut random = Random::of_session(!self.seed, number);
            let compared = compare(&made.file, &mut random);
            let checked = compared.and_then(|status| {
                count.statuses[usize::from(status)] += 1;
                count.add(&made.file)
            });
            if let Err(why) = checked {
                return Err(self.report(number, &made.file, &why));
            }
        }
        Ok(count)
    }

    fn report(&self, number: u64, file: &[u8], why: &str) -> String {
        let name = format!("failed-{}-{number}.session", self.seed);
        let path = self.folder.join(name);
        let kept = match fs::write(&path, file) {
            Ok(()) => format!("written to {}", path.display()),
            Err(fault) => format!("cannot be written to {}: {fault}", path.display()),
        };
        format!("session {number} of seed {}, {kept}: {why}", self.seed)
    }
}

impl Count {
    /// Walks the ledger over a session's answers and counts them.
    fn add(&mut self, file: &[u8]) -> Result<(), String> {
        self.sessions += 1;
        let Some(session) = Session::open(file) else {
            return Ok(());
        };
        let answers = session.answers();
        let entries = session.events.iter().map(|record| record.entry());
        self.met.join(&ledger::check_list(&session.sheets, entries, &answers)?);
        for answer in &answers {
            self.events += 1;
            self.answers[usize::from(answer.kind)][usize::from(answer.refusal)] += 1;
            self.samples_against += u64::from(answer.kind == 6 && answer.m > 0);
        }
        Ok(())
    }

    /// Events of any kind that ended in this refusal number; 0 counts accepted ones.
    pub fn refused_with(&self, number: usize) -> u64 {
        self.answers.iter().map(|of_kind| of_kind[number]).sum()
    }
}

/// What a lent output is filled with by this implementation, and with how much room.
struct Filling {
    name: &'static str,
    run: fn(&[u8], &mut [u8]) -> Outcome,
    room: usize,
    /// Says how two outputs differ that do so at a byte.
    differ: fn(&[u8], &[u8], usize) -> String,
}

const ANSWERS: Filling =
    Filling { name: "answers", run: file::run, room: RECORD_BYTES, differ: differing_answer };

const LINES: Filling =
    Filling { name: "lines", run: file::lines, room: LINE_ROOM, differ: differing_line };

fn compare_lent(
    filling: &Filling,
    engine: &mut dyn Engine,
    file: &[u8],
    random: &mut Random,
) -> Result<u8, String> {
    let events = Session::open(file).map_or(3, |session| session.events.len());
    let lent = sessions::lent_output(random, filling.room * events);
    let ours = Filled::by(&lent, |output| (filling.run)(file, output));
    let theirs = Filled::by(&lent, |output| engine.run(file, output));
    ours.compare(&theirs, filling.name, filling.differ)?;
    Ok(ours.outcome.status)
}

/// A lent buffer after a call, and what the call gave back.
struct Filled {
    outcome: Outcome,
    bytes: Vec<u8>,
}

impl Filled {
    fn by(lent: &[u8], call: impl FnOnce(&mut [u8]) -> Outcome) -> Filled {
        let mut bytes = lent.to_vec();
        Filled { outcome: call(&mut bytes), bytes }
    }

    /// Holds another call over the same lent bytes to this one; `differ` says how two buffers
    /// differ that do so at a byte.
    fn compare(
        &self,
        given: &Filled,
        name: &str,
        differ: fn(&[u8], &[u8], usize) -> String,
    ) -> Result<(), String> {
        let (expected, outcome) = (self.outcome, given.outcome);
        if outcome != expected {
            return Err(format!("expected {expected:?}, was given {outcome:?}"));
        }
        match self.bytes.iter().zip(&given.bytes).position(|(a, b)| a != b) {
            None => Ok(()),
            Some(at) if at >= expected.written => {
                Err(format!("byte {at} after the {name} was touched"))
            }
            Some(at) => Err(differ(&self.bytes, &given.bytes, at)),
        }
    }
}

fn differing_answer(ours: &[u8], theirs: &[u8], at: usize) -> String {
    let from = at - at % RECORD_BYTES;
    let to = from + RECORD_BYTES;
    let ordinal = at / RECORD_BYTES + 1;
    let (ours, theirs) = (&ours[from..to], &theirs[from..to]);
    format!("answer {ordinal}: expected {ours:?}, the engine gave {theirs:?}")
}

fn differing_line(ours: &[u8], theirs: &[u8], at: usize) -> String {
    let ordinal = ours[..at].iter().filter(|byte| **byte == b'\n').count();
    let line = |text: &[u8]| {
        let line = text.split(|byte| *byte == b'\n').nth(ordinal);
        String::from_utf8_lossy(line.unwrap_or_default()).into_owned()
    };
    let (ours, theirs) = (line(ours), line(theirs));
    format!("line {}: expected '{ours}', the engine gave '{theirs}'", ordinal + 1)
}

fn compare_lines(program: &mut dyn Program, file: &[u8]) -> Result<(), String> {
    let ours = file::program(file);
    let printed = program.print(file)?;
    if printed == ours.as_bytes() {
        return Ok(());
    }
    let theirs = String::from_utf8_lossy(&printed);
    let differs = ours.lines().zip(theirs.lines()).find(|(a, b)| a != b);
    let (expected, given) = differs.unwrap_or(("the same lines", "other lengths or line ends"));
    Err(format!("expected the line '{expected}', the program printed '{given}'"))
}

#[cfg(test)]
mod tests {
    use super::*;

    #[test]
    fn a_program_that_is_not_named_is_a_fault() {
        for nothing in [None, Some(OsString::new())] {
            let why = Executable::named(nothing).err().expect("nothing was named");
            assert!(why.contains("set IRGA_PROGRAM"), "{why}");
        }
        assert!(Executable::named(Some("target/bin/irga".into())).is_ok());
    }
}
