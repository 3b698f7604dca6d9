//! What a C or C++ compiler makes of include/irga.h, and the examples linked with the
//! archive: figures and lines are those of this implementation and of the program that
//! IRGA_PROGRAM names.

use std::collections::{BTreeSet, HashMap};
use std::fs::{self, File};
use std::path::{Path, PathBuf};
use std::process::{Command, Output, Stdio};

use irga_tests::figures::decimal;
use irga_tests::file::{self, Session};
use irga_tests::grounds::{self, Ground};
use irga_tests::harness::{Executable, Program};
use irga_tests::lesson;
use irga_tests::page;
use irga_tests::random::Random;
use irga_tests::recorder::{self, by_hand, Drawn, Kind};
use irga_tests::rules::Refusal;
use irga_tests::sessions::{self, PROFILES};

const C: &[&str] = &["cc", "-std=c99"];
const CPP: &[&str] = &["g++", "-std=c++11"];

fn repository() -> &'static Path {
    Path::new(env!("CARGO_MANIFEST_DIR")).parent().expect("the tests stand in a folder")
}

fn scratch(name: &str) -> PathBuf {
    Path::new(env!("CARGO_TARGET_TMPDIR")).join(name)
}

/// Runs a compiler that takes no warning; what it says is the message of a failure.
fn compile(compiler: &[&str], words: &[&str]) {
    let output = Command::new(compiler[0])
        .args(&compiler[1..])
        .args(["-Wall", "-Wextra", "-Wpedantic", "-Werror", "-Iinclude"])
        .args(words)
        .current_dir(repository())
        .output()
        .unwrap_or_else(|why| panic!("cannot start {}: {why}", compiler[0]));
    let said = String::from_utf8_lossy(&output.stderr);
    assert!(output.status.success(), "{compiler:?} {words:?}:\n{said}");
}

/// Writes a source, compiles it, links it with the archive, and names the program.
fn link(compiler: &[&str], name: &str, source: &str) -> PathBuf {
    let (path, program) = (scratch(name), scratch(&format!("{name}.program")));
    fs::write(&path, source).expect("the source can be written");
    let words = [path.to_str(), Some(env!("IRGA_ARCHIVE")), Some("-o"), program.to_str()];
    compile(compiler, &words.map(|word| word.expect("a path in UTF-8")));
    program
}

#[test]
fn header_stands_alone_in_c_and_in_cpp() {
    compile(C, &["-fsyntax-only", "-x", "c", "include/irga.h"]);
    compile(CPP, &["-fsyntax-only", "-x", "c++", "include/irga.h"]);
}

/// The header says that the library calls no other one: nothing in the archive is left to be
/// found elsewhere.
#[test]
fn archive_asks_for_nothing() {
    let output =
        Command::new("nm").args(["-u", env!("IRGA_ARCHIVE")]).output().expect("nm can be started");
    assert!(output.status.success(), "nm cannot read {}", env!("IRGA_ARCHIVE"));
    let said = String::from_utf8_lossy(&output.stdout);
    let asked: Vec<&str> =
        said.lines().filter(|line| !line.is_empty() && !line.ends_with(':')).collect();
    assert!(said.contains(".o:") && asked.is_empty(), "{said}");
}

/// Where document 01 has the fields of a record.
const OFFSETS: [(&str, usize); 16] = [
    ("IRGA_SHEET_A1", 0),
    ("IRGA_SHEET_A2", 4),
    ("IRGA_SHEET_A3", 8),
    ("IRGA_SHEET_T0", 12),
    ("IRGA_SHEET_K", 16),
    ("IRGA_EVENT_KIND", 0),
    ("IRGA_EVENT_RAW", 4),
    ("IRGA_EVENT_C", 8),
    ("IRGA_EVENT_P", 12),
    ("IRGA_EVENT_T", 16),
    ("IRGA_EVENT_E", 20),
    ("IRGA_ANSWER_KIND", 0),
    ("IRGA_ANSWER_REFUSAL", 1),
    ("IRGA_ANSWER_M", 4),
    ("IRGA_ANSWER_X", 8),
    ("IRGA_ANSWER_Y", 16),
];

const REFUSALS: [(&str, Refusal); 18] = [
    ("IRGA_NO_SHEET", Refusal::NoSheet),
    ("IRGA_SHEET_LIMITS", Refusal::SheetOutsideLimits),
    ("IRGA_ZERO_RANGE", Refusal::ZeroOutsideRange),
    ("IRGA_CYLINDER_RANGE", Refusal::CylinderOutsideRange),
    ("IRGA_NO_SPAN", Refusal::NoSpanServes),
    ("IRGA_INPUT_LIMITS", Refusal::InputOutsideLimits),
    ("IRGA_BELOW_ZERO", Refusal::BelowZero),
    ("IRGA_OVER_RANGE", Refusal::OverRange),
    ("IRGA_NO_REFERENCE_SIGNAL", Refusal::NoReferenceSignal),
    ("IRGA_NOT_NOW", Refusal::NotNow),
    ("IRGA_MALFORMED_EVENT", Refusal::MalformedEvent),
    ("IRGA_MALFORMED_FILE", Refusal::MalformedFile),
    ("IRGA_OUTPUT_TOO_SHORT", Refusal::OutputTooShort),
    ("IRGA_TOO_MANY", Refusal::TooMany),
    ("IRGA_NO_ROOM", Refusal::NoRoom),
    ("IRGA_HEADER_INTERVAL", Refusal::HeaderInterval),
    ("IRGA_PAGE_TOO_LONG", Refusal::PageTooLong),
    ("IRGA_RECORDER_LIMITS", Refusal::RecorderLimits),
];

const GROUNDS: [(&str, Ground); 5] = [
    ("IRGA_GROUND_NONE", Ground::None),
    ("IRGA_GROUND_SIGNAL", Ground::Signal),
    ("IRGA_GROUND_K", Ground::K),
    ("IRGA_GROUND_REDUCED", Ground::Reduced),
    ("IRGA_GROUND_WET", Ground::Wet),
];

/// The header's constants by name, and what this implementation or document 01 has.
fn constants() -> Vec<(&'static str, usize)> {
    let (sheets, events) = (file::SHEETS_LIMIT, file::EVENTS_LIMIT);
    let mut constants = vec![
        ("IRGA_HEADER_BYTES", file::HEADER_BYTES),
        ("IRGA_RECORD_BYTES", file::RECORD_BYTES),
        ("IRGA_LINE_ROOM", file::LINE_ROOM),
        ("IRGA_PAGE_LINE_BYTES", page::LINE_BYTES),
        ("IRGA_SHEETS_MAX", sheets),
        ("IRGA_EVENTS_MAX", events),
        ("IRGA_FILE_MAX", lesson::longest().to_bytes().len()),
        ("IRGA_ANSWERS_MAX", file::RECORD_BYTES * events),
        ("IRGA_LINES_MAX", file::LINE_ROOM * events),
        ("IRGA_GROUNDS_MAX", events),
        ("IRGA_PAGE_MAX", page::LONGEST),
        ("IRGA_HEADER_EVERY_MIN", *page::EVERY.start() as usize),
        ("IRGA_HEADER_EVERY_MAX", *page::EVERY.end() as usize),
        ("IRGA_RECORDER_MAX", *recorder::VALUES.end() as usize),
        ("IRGA_RECORDER_CHANNEL_MAX", *recorder::CHANNELS.end() as usize),
        ("IRGA_VOLTAGE", 0),
        ("IRGA_CURRENT", 1),
        ("IRGA_ACCEPTED", 0),
    ];
    constants.extend(OFFSETS);
    constants.extend(REFUSALS.map(|(name, refusal)| (name, usize::from(refusal.number()))));
    constants.extend(GROUNDS.map(|(name, ground)| (name, usize::from(ground.number()))));
    constants
}

/// Names of the kinds in document 01's order, and R-10's.
const KINDS: [&str; 10] = [
    "LOAD",
    "ZERO",
    "SPAN",
    "REFERENCE",
    "ABSOLUTE",
    "SAMPLE",
    "START",
    "STOP",
    "AREA",
    "START_SHORT",
];

/// An array of −1 elements does not compile: one for each constant that is another.
#[test]
fn constants_are_those_of_the_format() {
    let kinds = KINDS.iter().zip(1..).map(|(name, kind)| (format!("IRGA_{name}"), kind));
    let named = constants().into_iter().map(|(name, value)| (name.to_string(), value));
    let tests = named.chain(kinds).enumerate().map(|(i, (name, value))| {
        format!("typedef char test_{i}[(long long)({name}) == {value}LL ? 1 : -1];\n")
    });
    let source: String = tests.collect();
    let path = scratch("constants.c");
    fs::write(&path, format!("#include \"irga.h\"\n{source}")).expect("a written source");
    compile(C, &["-fsyntax-only", path.to_str().expect("a path in UTF-8")]);
}

/// A program that calls all nine functions and gives their sum of statuses: four times 12 for a
/// file of one byte, 11 + 11 for an answer of one, 11 for an event of one, 18 + 18 for a kind of
/// channel that there is not.
const CALLS: &str = r#"
#include "irga.h"
int main(void) {
    uint8_t byte = 0, other = 0, out = 7;
    size_t written = 1, lines = 1, page = 1, grounds = 1, planned = 1;
    double a = 1, b = 2, c = 3;
    uint16_t word = 5;
    int16_t code = 6;
    int sum = irga_run(&byte, 1, &out, 1, &written);
    sum += irga_lines(&byte, 1, &out, 1, &lines);
    sum += irga_page(&byte, 1, IRGA_HEADER_EVERY_MAX, &out, 1, &page);
    sum += irga_grounds(&byte, 1, &out, 1, &grounds);
    sum += irga_reading(&byte, 1, &a, &b, &c);
    sum += irga_area(&byte, 1, &a);
    sum += irga_write(&byte, 0, &other, 1, &out, 1, &planned);
    sum += irga_pack(IRGA_CURRENT + 1, 0, -IRGA_RECORDER_MAX, IRGA_RECORDER_MAX, 0, &word);
    sum += irga_unpack(IRGA_CURRENT + 1, 0, &code, &out);
    if (written != 0 || lines != 0 || page != 0 || grounds != 0 || planned != 0)
        return 0;
    if (word != 0 || code != 6)
        return 0;
    return out == 7 && a == 1 && b == 2 && c == 3 ? sum : 0;
}
"#;

#[test]
fn all_nine_functions_link_from_c_and_from_cpp() {
    for (compiler, name) in [(C, "calls.c"), (CPP, "calls.cpp")] {
        let status = Command::new(link(compiler, name, CALLS)).status();
        let status = status.expect("the program starts").code();
        assert_eq!(status, Some(4 * 12 + 11 + 11 + 11 + 18 + 18), "{name}");
    }
}

/// Prints the page of standard input, so many lines under a header, from a buffer that is given all or
/// but a few of its bytes: PAGE N FEWER. Its exit status is that of irga_page.
const PAGE: &str = r#"
#include <stdio.h>
#include <stdlib.h>
#include "irga.h"
static uint8_t file[IRGA_FILE_MAX + 1], page[IRGA_PAGE_MAX];
int main(int count, char **words) {
    size_t length = fread(file, 1, sizeof file, stdin), written = 1, room = sizeof page;
    uint32_t every = count > 2 ? (uint32_t)strtoul(words[1], NULL, 10) : 0;
    uint8_t status;
    if (count > 2)
        room -= strtoul(words[2], NULL, 10);
    status = irga_page(file, length, every, page, room, &written);
    fwrite(page, 1, written, stdout);
    return status;
}
"#;

#[test]
fn pages_from_c_and_from_cpp() {
    let path = scratch("longest-page.session");
    let longest = page::by_hand::longest();
    fs::write(&path, longest.to_bytes()).expect("a written file");
    let text = |every: usize| page::text(&page::samples(&longest), every).into_bytes();
    for (compiler, name) in [(C, "page.c"), (CPP, "page.cpp")] {
        let program = link(compiler, name, PAGE);
        for (every, fewer, status, owed) in [
            ("1", "0", 0, text(1)),
            ("40", "0", 0, text(40)),
            ("999", "0", 0, text(999)),
            ("1", "1", 17, Vec::new()),
            ("0", "0", 16, Vec::new()),
            ("1000", "1", 16, Vec::new()),
        ] {
            let output = run(&program, &[every, fewer].map(Path::new), Some(&path));
            assert_eq!(output.status.code(), Some(status), "{name} {every} {fewer}");
            assert!(output.stdout == owed, "{name} {every} {fewer}");
        }
    }
}

/// Prints the grounds of standard input, each as a digit, from a buffer that is given so many bytes:
/// GROUNDS ROOM. Its exit status is that of irga_grounds.
const GROUND_DIGITS: &str = r#"
#include <stdio.h>
#include <stdlib.h>
#include "irga.h"
static uint8_t file[IRGA_FILE_MAX + 1], grounds[IRGA_GROUNDS_MAX];
int main(int count, char **words) {
    size_t length = fread(file, 1, sizeof file, stdin), written = 1, at;
    size_t room = count > 1 ? strtoul(words[1], NULL, 10) : sizeof grounds;
    uint8_t status = irga_grounds(file, length, grounds, room, &written);
    for (at = 0; at < written; at++)
        putchar('0' + grounds[at]);
    return status;
}
"#;

/// Sessions worked out by hand, with all the room, with just enough, and with a byte less; and a file
/// that is none.
#[test]
fn grounds_from_c_and_from_cpp() {
    let path = scratch("grounds.session");
    for (compiler, name) in [(C, "grounds.c"), (CPP, "grounds.cpp")] {
        let program = link(compiler, name, GROUND_DIGITS);
        let digits = |room: usize, status: i32, owed: &str| {
            let output = run(&program, &[Path::new(&room.to_string())], Some(&path));
            assert_eq!(output.status.code(), Some(status), "{name} {room}");
            assert_eq!(String::from_utf8_lossy(&output.stdout), owed, "{name} {room}");
        };
        for owed in grounds::by_hand::owed_grounds() {
            fs::write(&path, owed.session.to_bytes()).expect("a written file");
            let text: String = owed.grounds.iter().map(u8::to_string).collect();
            digits(file::EVENTS_LIMIT, 0, &text);
            digits(text.len(), 0, &text);
            if !text.is_empty() {
                digits(text.len() - 1, 13, "");
            }
        }
        fs::write(&path, [0; 17]).expect("a written file");
        digits(file::EVENTS_LIMIT, 12, "");
        digits(0, 12, "");
    }
}

/// Reads lines of kind, value, low, high and channel, and prints status and word of each, then code
/// and channel of the word, or what the places held before.
const WORDS: &str = r#"
#include <inttypes.h>
#include <stdio.h>
#include "irga.h"
int main(void) {
    unsigned kind;
    int64_t value, low, high;
    uint32_t channel;
    while (scanf("%u %" SCNd64 " %" SCNd64 " %" SCNd64 " %" SCNu32, &kind, &value, &low, &high,
                 &channel) == 5) {
        uint16_t word = 0xA5A5;
        int16_t code = -1234;
        uint8_t number = 99;
        uint8_t packed = irga_pack((uint8_t)kind, value, low, high, channel, &word);
        uint8_t unpacked = irga_unpack((uint8_t)kind, word, &code, &number);
        printf("%u %u %u %d %u\n", packed, word, unpacked, code, number);
    }
    return 0;
}
"#;

/// Values worked out by hand, from C and from C++: each argument arrives whole.
#[test]
fn words_from_c_and_from_cpp() {
    let path = scratch("values.txt");
    let owed = by_hand::owed();
    let line = |owed: &by_hand::Owed| {
        let Drawn { x, x0, xf, channel } = owed.drawn;
        format!("{} {x} {x0} {xf} {channel}\n", owed.kind)
    };
    fs::write(&path, owed.iter().map(line).collect::<String>()).expect("a written file");
    let lines = owed.iter().map(|owed| {
        let (status, (code, channel)) = match recorder::unpack(owed.kind, owed.word) {
            Ok(held) => (0, held),
            Err(refusal) => (refusal.number(), (-1234, 99)),
        };
        format!("{} {} {status} {code} {channel}\n", owed.status, owed.word)
    });
    let expected: String = lines.collect();
    for (compiler, name) in [(C, "words.c"), (CPP, "words.cpp")] {
        let output = run(&link(compiler, name, WORDS), &[], Some(&path));
        assert_eq!(output.status.code(), Some(0), "{name}");
        assert_eq!(String::from_utf8_lossy(&output.stdout), expected, "{name}");
    }
}

/// A program of examples/, compiled for one test.
fn example(name: &str, test: &str) -> PathBuf {
    let source = fs::read_to_string(repository().join(format!("examples/{name}.c")));
    link(C, &format!("{name}-{test}.c"), &source.expect("the example is there"))
}

fn readings(test: &str) -> PathBuf {
    example("readings", test)
}

fn run(program: &Path, words: &[&Path], input: Option<&Path>) -> Output {
    let open = |path: &Path| Stdio::from(File::open(path).expect("the session can be opened"));
    Command::new(program)
        .args(words)
        .stdin(input.map_or_else(Stdio::null, open))
        .output()
        .expect("the program starts")
}

/// What the program owes to one line of a session.
enum OwedLine {
    Whole(String),
    /// What comes before a refusal's meaning, and whose meaning it is: the number's, or the ground's.
    Refused(String, (i64, u8)),
}

fn owed(line: &str, ground: Ground) -> Option<OwedLine> {
    let numbers: Vec<i64> = line.split(' ').map(|word| word.parse().expect("a number")).collect();
    let &[ordinal, kind, refusal, _, x, y] = &numbers[..] else {
        panic!("a line of {} numbers", numbers.len());
    };
    let whole = match (refusal, kind) {
        (0, 6) => {
            let (wet, dry) = (decimal(x, 6), decimal(y, 6));
            format!("{ordinal}: wet {wet} umol/mol, dry {dry} umol/mol")
        }
        (0, 9) => format!("{ordinal}: area {} umol/mol s", decimal(x, 7)),
        (0, _) => return None,
        _ => {
            let named = format!("over range, ground {}: ", ground.number());
            let over = if refusal == 8 { &named } else { "" };
            let before = format!("{ordinal}: refused {refusal}, {over}");
            return Some(OwedLine::Refused(before, (refusal, ground.number())));
        }
    };
    Some(OwedLine::Whole(whole))
}

/// What each refusal, and each ground of refusal 8, was said to mean.
type Meanings = HashMap<(i64, u8), String>;

/// Compares what was printed with the lines of a session, and gathers the meanings.
fn assert_owed(printed: &[u8], session: &[u8], meanings: &mut Meanings) {
    let printed = std::str::from_utf8(printed).expect("a text");
    assert!(printed.is_empty() || printed.ends_with('\n'));
    let grounds = grounds::of_session(&Session::open(session).expect("a session"));
    let lines = lines(session);
    let owed: Vec<OwedLine> =
        lines.lines().zip(grounds).filter_map(|(line, ground)| owed(line, ground)).collect();
    assert_eq!(printed.lines().count(), owed.len());
    for (line, owed) in printed.lines().zip(&owed) {
        match owed {
            OwedLine::Whole(whole) => assert_eq!(line, whole),
            OwedLine::Refused(before, whose) => {
                let meaning = line.strip_prefix(before.as_str());
                let meaning = meaning.unwrap_or_else(|| panic!("{line}, {before}"));
                assert!(!meaning.is_empty());
                let known = meanings.entry(*whose).or_insert_with(|| meaning.to_string());
                assert_eq!(known, meaning);
            }
        }
    }
}

/// The lines of a session by this implementation, which are those of the program under
/// test too.
fn lines(session: &[u8]) -> String {
    let ours = file::program(session);
    let printed = Executable::under_test().print(session);
    assert_eq!(printed.expect("the program runs"), ours.as_bytes());
    ours
}

#[test]
fn readings_of_the_lesson() {
    let program = readings("lesson");
    let path = repository().join("examples/lesson.session");
    let session = fs::read(&path).expect("the lesson is there");
    let mut meanings = HashMap::new();
    for output in [run(&program, &[&path], None), run(&program, &[], Some(&path))] {
        assert_eq!(output.status.code(), Some(0));
        assert!(output.stderr.is_empty());
        assert_owed(&output.stdout, &session, &mut meanings);
        assert_eq!(output.stdout.iter().filter(|byte| **byte == b'\n').count(), 300 + 1);
    }
    assert!(meanings.is_empty(), "the lesson has no refusal");
}

/// Sessions of every profile, until every refusal of an event was met, and 8 by each of its grounds;
/// each number, or ground, has one meaning and no two have the same.
#[test]
fn readings_of_sessions_with_refusals() {
    let program = readings("refusals");
    let path = scratch("refusals.session");
    let mut random = Random::new(0x6268);
    let mut meanings = HashMap::new();
    let mut below_zero = 0;
    for profile in PROFILES.iter().cycle().take(12 * PROFILES.len()) {
        let session = sessions::session(&mut random, profile).to_bytes();
        fs::write(&path, &session).expect("the session can be written");
        let output = run(&program, &[&path], None);
        assert_eq!(output.status.code(), Some(0));
        assert_owed(&output.stdout, &session, &mut meanings);
        below_zero += String::from_utf8_lossy(&output.stdout).matches(": wet -").count();
    }
    assert!(below_zero >= 100, "{below_zero} readings below zero");
    let met: BTreeSet<(i64, u8)> = meanings.keys().copied().collect();
    let numbers = (1..=11).filter(|number| *number != 8).map(|number| (number, 0));
    assert_eq!(met, numbers.chain((1..=4).map(|ground| (8, ground))).collect());
    let texts: BTreeSet<&String> = meanings.values().collect();
    assert_eq!(texts.len(), met.len(), "{texts:?}");
}

/// Sessions whose grounds were worked out by hand: the whole line of each sample that is over range, and
/// no such words in any other.
#[test]
fn readings_over_range() {
    let (program, path) = (readings("over-range"), scratch("over-range.session"));
    let mut met = BTreeSet::new();
    for owed in grounds::by_hand::owed_grounds() {
        fs::write(&path, owed.session.to_bytes()).expect("a written file");
        let output = run(&program, &[&path], None);
        assert_eq!((output.status.code(), output.stderr.is_empty()), (Some(0), true));
        let printed = String::from_utf8(output.stdout).expect("a text");
        let over: Vec<&str> = printed.lines().filter(|line| line.contains("over range")).collect();
        let events = (1..).zip(&owed.grounds).filter(|(_, ground)| **ground != 0);
        let lines = events.map(|(ordinal, ground)| {
            met.insert(*ground);
            format!(
                "{ordinal}: refused 8, over range, ground {ground}: {}",
                grounds::by_hand::ADVICE[usize::from(*ground) - 1]
            )
        });
        assert_eq!(over, lines.collect::<Vec<String>>(), "{}", owed.name);
        let advice = grounds::by_hand::ADVICE;
        let advised = advice.iter().map(|words| printed.matches(words).count()).sum::<usize>();
        assert_eq!(advised, over.len(), "{}", owed.name);
    }
    assert_eq!(met, BTreeSet::from([1, 2, 3, 4]));
}

/// Asserts an exit status, no reading, and a message that holds some words.
fn assert_said(output: &Output, status: i32, words: &str) {
    let said = String::from_utf8_lossy(&output.stderr);
    assert_eq!(output.status.code(), Some(status), "{said}");
    assert!(output.stdout.is_empty() && said.contains(words), "{said}");
}

#[test]
fn readings_of_what_is_no_session() {
    let program = readings("trouble");
    let lesson = fs::read(repository().join("examples/lesson.session")).expect("the lesson");
    let damaged = scratch("damaged.session");
    fs::write(&damaged, &lesson[..lesson.len() - 1]).expect("a written file");
    assert_said(&run(&program, &[&damaged], None), 1, "refused 12, ");
    // The longest session is read whole, and one byte more is seen.
    let long = scratch("long.session");
    let mut bytes = lesson::longest().to_bytes();
    fs::write(&long, &bytes).expect("a written file");
    assert_eq!(run(&program, &[&long], None).status.code(), Some(0));
    bytes.push(0);
    fs::write(&long, &bytes).expect("a written file");
    assert_said(&run(&program, &[&long], None), 1, "it is too long");
    assert_said(&run(&program, &[&scratch("nothing.session")], None), 2, "cannot open");
    assert_said(&run(&program, &[repository()], None), 2, "cannot read");
    assert_said(&run(&program, &[&damaged, &damaged], None), 2, "usage");
    assert_said(&run(&program, &[], None), 1, "refused 12, ");
}

/// What include/irga.h says of the stack, over the lesson and sessions of every profile: run, read
/// as lines, as a page and for its grounds, and written again from their records.
#[test]
fn a_call_takes_less_stack_than_the_header_says() {
    let source = fs::read_to_string(repository().join("tests/c/stack.c"));
    let program = link(C, "stack.c", &source.expect("the program is there"));
    let mut random = Random::new(0x6269);
    let mut paths = vec![repository().join("examples/lesson.session")];
    for (number, profile) in PROFILES.iter().cycle().take(6 * PROFILES.len()).enumerate() {
        let path = scratch(&format!("stack-{number}.session"));
        fs::write(&path, sessions::session(&mut random, profile).to_bytes())
            .expect("a written file");
        paths.push(path);
    }
    let words: Vec<&Path> = paths.iter().map(PathBuf::as_path).collect();
    let output = run(&program, &words, None);
    let most = String::from_utf8(output.stdout).expect("a text");
    let most: Vec<usize> = most.lines().map(|line| line.parse().expect("bytes")).collect();
    println!("stack of run, lines, page, grounds, write and a word, and files written: {most:?}");
    let &[run, lines, page, grounds, write, word, made] = &most[..] else {
        panic!("six calls were made");
    };
    // A search of 28 halvings, each with a frame, cannot take less than 2,000 bytes. A writer
    // searches nothing; the lesson and other sessions were written, to the last event.
    let searching = [run, lines, page, grounds];
    assert!(searching.iter().all(|taken| (2_000..10_000).contains(taken)), "{most:?}");
    assert!([write, word].iter().all(|taken| (1..10_000).contains(taken)), "{most:?}");
    assert!(made > 10, "{most:?}");
}

/// A device that takes nothing: the lines are lost, and the status says so.
#[test]
fn lines_that_cannot_be_written() {
    let lesson = repository().join("examples/lesson.session");
    let pen = PEN.map(PathBuf::from).into_iter().chain([lesson.clone()]).collect();
    for (program, words) in [
        (readings("full"), vec![lesson]),
        (plan("full"), vec![scratch("full.session")]),
        (pens("full"), pen),
    ] {
        let full = File::options().write(true).open("/dev/full").expect("a full device");
        let output = Command::new(program).args(words).stdout(full).output();
        assert_said(&output.expect("the program starts"), 2, "cannot write the ");
    }
}

fn pens(test: &str) -> PathBuf {
    example("recorder", test)
}

/// A voltage channel with the number 3, from 340 to 380 µmol/mol.
const PEN: [&str; 4] = ["voltage", "340000000", "380000000", "3"];

/// The words of a session's accepted samples by this implementation.
fn drawn(session: &[u8], kind: Kind, x0: i64, xf: i64, channel: u32) -> String {
    let lines = lines(session);
    let samples = lines.lines().filter_map(|line| {
        let numbers: Vec<i64> =
            line.split(' ').map(|word| word.parse().expect("a number")).collect();
        (numbers[1..3] == [6, 0]).then(|| (numbers[0], numbers[4]))
    });
    let words = samples.map(|(ordinal, x)| {
        let drawn = Drawn { x, x0, xf, channel };
        let word = recorder::pack(kind as u8, &drawn).expect("a word");
        let code = drawn.code(kind);
        format!("{ordinal}: word {word:04X}, code {code} on channel {channel}\n")
    });
    words.collect()
}

/// The lesson by name and from standard input, on both kinds of channel. Some of its samples lie
/// below the lower end of 340 µmol/mol: a voltage is negative there, and a current held.
#[test]
fn the_lesson_s_words() {
    let (program, lesson) = (pens("lesson"), repository().join("examples/lesson.session"));
    let session = fs::read(&lesson).expect("the lesson is there");
    for (kind, name) in [(Kind::Voltage, "voltage"), (Kind::Current, "current")] {
        let words = [&[name], &PEN[1..]].concat();
        let words: Vec<&Path> = words.iter().map(Path::new).chain([lesson.as_path()]).collect();
        let expected = drawn(&session, kind, 340_000_000, 380_000_000, 3);
        assert_eq!(expected.lines().count(), 300);
        let below = if kind == Kind::Voltage { "code -" } else { "code 0 " };
        assert!(expected.contains(below));
        for output in [run(&program, &words, None), run(&program, &words[..4], Some(&lesson))] {
            assert_eq!((output.status.code(), output.stderr.is_empty()), (Some(0), true));
            assert_eq!(String::from_utf8_lossy(&output.stdout), expected);
        }
    }
}

/// Sessions of every profile: readings at both ends of the chart and between them.
#[test]
fn words_of_sessions() {
    let (program, path) = (pens("sessions"), scratch("drawn.session"));
    let mut random = Random::new(0x626A);
    let mut printed = String::new();
    for profile in PROFILES.iter().cycle().take(4 * PROFILES.len()) {
        let session = sessions::session(&mut random, profile).to_bytes();
        fs::write(&path, &session).expect("a written file");
        let words = ["current", "-10000000", "1000000000", "15"].map(Path::new);
        let output = run(&program, &words, Some(&path));
        assert_eq!((output.status.code(), output.stderr.is_empty()), (Some(0), true));
        let expected = drawn(&session, Kind::Current, -10_000_000, 1_000_000_000, 15);
        assert_eq!(String::from_utf8_lossy(&output.stdout), expected);
        printed += &expected;
    }
    let with = |word: &str| printed.matches(word).count();
    let (all, low, high) = (printed.lines().count(), with("word F000"), with("word FFFF"));
    println!("{low} at the low end and {high} at the high one, of {all}");
    assert!(low > 0 && high > 0 && low + high < all / 2, "{low} and {high} of {all}");
}

#[test]
fn pens_that_draw_nothing() {
    let program = pens("trouble");
    let lesson = repository().join("examples/lesson.session");
    let with = |words: &[&str]| {
        run(&program, &words.iter().map(Path::new).collect::<Vec<_>>(), Some(&lesson))
    };
    for scale in [
        ["voltage", "380000000", "340000000", "3"],
        ["current", "5", "5", "3"],
        ["voltage", "0", "4000000001", "3"],
        ["voltage", "-4000000001", "0", "3"],
        ["current", "0", "1", "16"],
    ] {
        assert_said(&with(&scale), 1, "the scale or the channel: refused 18");
    }
    for words in [
        &["voltage", "0", "1"][..],
        &["volts", "0", "1", "3"],
        &["voltage", "0.5", "1", "3"],
        &["voltage", "", "1", "3"],
        &["voltage", "0", "9223372036854775808", "3"],
        &["voltage", "0", "1", "-1"],
        &["voltage", "0", "1", "4294967296"],
        &["voltage", "0", "1", "3", "one", "two"],
    ] {
        assert_said(&with(words), 2, "usage: recorder");
    }
    let damaged = scratch("undrawn.session");
    fs::write(&damaged, [0; 17]).expect("a written file");
    let words = |name: &Path| -> Vec<PathBuf> {
        PEN.iter().map(PathBuf::from).chain([name.to_path_buf()]).collect()
    };
    for (name, status, says) in [
        (damaged.as_path(), 1, "refused 12"),
        (&scratch("nothing.session"), 2, "cannot open"),
        (repository(), 2, "cannot read"),
    ] {
        let words = words(name);
        let words: Vec<&Path> = words.iter().map(PathBuf::as_path).collect();
        assert_said(&run(&program, &words, None), status, says);
    }
}

fn plan(test: &str) -> PathBuf {
    example("plan", test)
}

/// By document 01: raw 0 and 10,000,000 against a reference of 1,000,000,000 at R 40,000,000;
/// by document 02's R-5 the area of the three readings.
const PLANNED_LINES: &str = "\
1 1 0 0 0 0
2 4 0 0 0 0
3 7 0 0 0 0
4 6 0 40000000 1000000000 1000000000
5 6 0 40000000 1388160000 1388160000
6 6 0 40000000 1000000000 1000000000
7 8 0 0 0 0
8 9 0 3 776320000 0
";

/// Stored where nothing stood, and over a longer file, of which nothing is left.
#[test]
fn a_lesson_that_was_planned() {
    let (program, path) = (plan("lesson"), scratch("planned.session"));
    let mut expected = [0; 232];
    assert_eq!(lesson::desk().write(&mut expected).written, expected.len());
    for before in [None, Some([0xA5; 5_000])] {
        match before {
            None => drop(fs::remove_file(&path)),
            Some(bytes) => fs::write(&path, bytes).expect("a written file"),
        }
        let output = run(&program, &[&path], None);
        assert_eq!(output.status.code(), Some(0));
        assert!(output.stderr.is_empty());
        assert_eq!(String::from_utf8_lossy(&output.stdout), PLANNED_LINES);
        let stored = fs::read(&path).expect("the lesson was stored");
        assert_eq!(stored, expected);
        assert_eq!(lines(&stored), PLANNED_LINES);
    }
}

#[test]
fn a_plan_that_cannot_be_stored() {
    let program = plan("trouble");
    assert_said(&run(&program, &[Path::new("/dev/full")], None), 2, "cannot write /dev/full: ");
    let nowhere = scratch("nothing").join("planned.session");
    assert_said(&run(&program, &[&nowhere], None), 2, "cannot open");
    assert_said(&run(&program, &[repository()], None), 2, "cannot open");
    let name = scratch("unplanned.session");
    assert_said(&run(&program, &[], None), 2, "usage: plan FILE");
    assert_said(&run(&program, &[&name, &name], None), 2, "usage: plan FILE");
    assert!(!name.exists());
}
